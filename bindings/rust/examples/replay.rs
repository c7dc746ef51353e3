//! `replay PLAN`: for each line of standard input, a list of choices as `dine replay --choices` has it, prints what
//! `dine replay` prints.
use dine::{Plan, World};
use std::io::BufRead;

fn main() -> Result<(), Box<dyn std::error::Error>> {
    let path = std::env::args().nth(1).ok_or("usage: replay PLAN")?;
    let plan = Plan::read(&std::fs::read_to_string(path)?)?;
    for line in std::io::stdin().lock().lines() {
        let line = line?;
        let choices = line.split(',').filter(|word| !word.is_empty()).map(str::parse).collect::<Result<Vec<u32>, _>>()?;
        print!("{}", World::open(&plan)?.replay_text(&plan, &choices)?);
    }
    Ok(())
}
