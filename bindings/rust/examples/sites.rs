//! Two sites in two threads, which have nothing in common but a pair of sockets: `cargo run --example sites`.
use dine::{run_number, Kind, Plan, Site, Turn};
use std::collections::hash_map::RandomState;
use std::hash::{BuildHasher, Hasher};
use std::io::{Read, Write};
use std::os::unix::net::UnixStream;

const PLAN: &str = "version = 1\n[[site]]\nname = \"a\"\njobs = [{ name = \"x\" }, { name = \"y\" }]\n\
    [[site]]\nname = \"b\"\njobs = [{ name = \"z\" }]\n[[edge]]\nends = [\"a\", \"b\"]\n";

type Result<T> = std::result::Result<T, Box<dyn std::error::Error + Send + Sync>>;

// A letter has at most 29 bytes and does not say how many, so its length goes before it.
fn send(mut socket: &UnixStream, letter: &[u8]) -> Result<()> {
    socket.write_all(&[letter.len() as u8])?;
    Ok(socket.write_all(letter)?)
}

fn receive(mut socket: &UnixStream) -> Result<Vec<u8>> {
    let mut length = [0];
    socket.read_exact(&mut length)?;
    let mut letter = vec![0; length[0].into()];
    socket.read_exact(&mut letter)?;
    Ok(letter)
}

fn run(number: u32, random: u64, neighbour: &UnixStream) -> Result<String> {
    let mut site = Site::open_in(&Plan::read(PLAN)?, number, run_number(PLAN, random))?;
    loop {
        match site.turn()? {
            // It can do nothing before the next letter.
            Turn::Waits => {
                site.take(&receive(neighbour)?)?;
            }
            // Before this call it does its job. `true` says that the job failed.
            Turn::Did(Kind::Begin, _) => site.end(false)?,
            Turn::Did(_, []) => {}
            // The letter goes to `site.place(p)?.neighbour`, if p is the place of the kind, such as `Kind::Give(p)`.
            Turn::Did(_, letter) => send(neighbour, letter)?,
            Turn::Finished => break,
        }
    }
    let log = if site.place(0)?.has_fork { format!(", and has the fork: {:?}", site.log(0)?) } else { String::new() };
    Ok(format!("site {number} ate {} times{log}", site.ate()))
}

fn main() -> Result<()> {
    let (one, other) = UnixStream::pair()?;
    // Drawn once for the run, and known to both. The standard library has no random numbers but these.
    let random = RandomState::new().build_hasher().finish();
    let thread = std::thread::spawn(move || run(1, random, &other));
    println!("{}", run(0, random, &one)?);
    println!("{}", thread.join().expect("no panic")?);
    Ok(())
}
