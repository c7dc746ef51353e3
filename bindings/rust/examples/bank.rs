//! Four accounts in a ring, and a sum of money between each two neighbours. Any thread pays, at any time.
use dine::Table;

fn main() -> Result<(), dine::Error> {
    let mut table = Table::new();
    let (ann, bob) = (table.worker("ann")?, table.worker("bob")?);
    let (cid, dan) = (table.worker("cid")?, table.worker("dan")?);
    for (one, other) in [(ann, bob), (bob, cid), (cid, dan), (dan, ann)] {
        table.edge(one, other, 100)?;
    }
    let open = table.open()?;
    std::thread::scope(|scope| {
        for _ in 0..8 {
            scope.spawn(|| -> Result<(), dine::Error> {
                for _ in 0..1000 {
                    open.eat(bob, |meal| {
                        let (from, to) = meal.both(ann, cid).expect("both are neighbours of bob");
                        (*from, *to) = (*from - 1, *to + 1);
                    })?;
                }
                Ok(())
            });
        }
    });
    let closed = open.close()?;
    println!("bob ate {} times, the sum is {}", closed.ate(bob), closed.into_values().iter().sum::<i32>());
    Ok(())
}
