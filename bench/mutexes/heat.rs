//! Heat in a square of tiles, with a strip of cells between neighbours, by mutexes locked in order.
use std::{sync::Mutex, thread, time::Instant};
const WIDE: usize = 4;
const CELLS: usize = 16;
const MEALS: u32 = 200;

#[derive(Clone, Copy)]
enum Side { North, West, East, South }

fn level(a: &mut u32, b: &mut u32) {
    let flow = a.abs_diff(*b) / 2;
    if *a > *b { *a -= flow; *b += flow; } else { *b -= flow; *a += flow; }
}

fn cell_at(side: Side, i: usize) -> usize {
    match side {
        Side::North => i,
        Side::South => (CELLS - 1) * CELLS + i,
        Side::West => i * CELLS,
        Side::East => i * CELLS + CELLS - 1,
    }
}

fn level_cells(cells: &mut [u32], i: usize, j: usize) {
    let (mut a, mut b) = (cells[i], cells[j]);
    level(&mut a, &mut b);
    cells[i] = a;
    cells[j] = b;
}

fn spread(cells: &mut [u32]) {
    for row in 0..CELLS {
        for column in 0..CELLS {
            let here = row * CELLS + column;
            if column + 1 < CELLS { level_cells(cells, here, here + 1); }
            if row + 1 < CELLS { level_cells(cells, here, here + CELLS); }
        }
    }
}

fn exchange(cells: &mut [u32], strip: &mut [u32], side: Side) {
    for i in 0..CELLS { level(&mut cells[cell_at(side, i)], &mut strip[i]); }
}

fn main() {
    let meals = MEALS;
    let mut strips: Vec<Mutex<Vec<u32>>> = Vec::new();
    // For each tile its borders, whose strips are numbered in ascending order.
    let mut borders: Vec<Vec<(Side, usize)>> = vec![vec![]; WIDE * WIDE];
    for n in 0..WIDE * WIDE {
        for (there, to, at, from) in [
            (n % WIDE + 1 < WIDE, n + 1, Side::East, Side::West),
            (n + WIDE < WIDE * WIDE, n + WIDE, Side::South, Side::North),
        ] {
            if there {
                borders[n].push((at, strips.len()));
                borders[to].push((from, strips.len()));
                strips.push(Mutex::new(vec![0; CELLS]));
            }
        }
    }
    let start = Instant::now();
    let tiles: Vec<Vec<u32>> = thread::scope(|scope| {
        let tiles: Vec<_> = (0..WIDE * WIDE)
            .map(|n| {
                let (borders, strips) = (&borders[n], &strips);
                scope.spawn(move || {
                    let mut cells = vec![if n == 0 { 1_000_000u32 } else { 0 }; CELLS * CELLS];
                    for _ in 0..meals {
                        // All strips at once, as a meal has all forks.
                        let mut held: Vec<_> = borders.iter().map(|(side, e)| (*side, strips[*e].lock().unwrap())).collect();
                        for (side, strip) in held.iter_mut() { exchange(&mut cells, strip, *side); }
                        spread(&mut cells);
                    }
                    cells
                })
            })
            .collect();
        tiles.into_iter().map(|t| t.join().unwrap()).collect()
    });
    eprintln!("the run took {} microseconds", start.elapsed().as_micros());
    let strips: Vec<u32> = strips.into_iter().flat_map(|s| s.into_inner().unwrap()).collect();
    let total: u64 = tiles.iter().flatten().chain(&strips).map(|c| *c as u64).sum();
    println!("total {total}");
    eprintln!("from {} to {}", tiles.iter().flatten().min().unwrap(), tiles.iter().flatten().max().unwrap());
}
