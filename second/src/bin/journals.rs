//! Makes journals: `journals SEED COUNT DIR` writes DIR/000000.in and so on.

use std::path::Path;
use std::{env, fs, io, process};

fn main() {
    let given: Vec<String> = env::args().skip(1).collect();
    let numbers = (given.first().map(|s| s.parse()), given.get(1).map(|s| s.parse()));
    match (numbers, given.get(2)) {
        ((Some(Ok(seed)), Some(Ok(count))), Some(dir)) if given.len() == 3 => {
            if let Err(trouble) = write_all(seed, count, Path::new(dir)) {
                eprintln!("journals: {trouble}");
                process::exit(1);
            }
        }
        _ => {
            eprintln!("usage: journals SEED COUNT DIR");
            process::exit(2);
        }
    }
}

/// Write so many journals of a seed into a directory.
fn write_all(seed: u64, count: u64, dir: &Path) -> io::Result<()> {
    fs::create_dir_all(dir)?;
    for place in 0..count {
        fs::write(dir.join(format!("{place:06}.in")), second::made::journal(seed, place))?;
    }
    println!("seed={seed} count={count}");
    Ok(())
}
