//! `generate --seed S --count N --out DIR`: writes N job files, going round
//! the kinds, as DIR/KIND-0001.job and on.

use std::path::PathBuf;
use std::process::ExitCode;

struct Wish {
    seed: u64,
    count: usize,
    out: PathBuf,
}

fn read_wish(words: &[String]) -> Option<Wish> {
    let (mut seed, mut count, mut out) = (1, 200, None);
    for pair in words.chunks(2) {
        let [name, value] = pair else { return None };
        match name.as_str() {
            "--seed" => seed = value.parse().ok()?,
            "--count" => count = value.parse().ok()?,
            "--out" => out = Some(PathBuf::from(value)),
            _ => return None,
        }
    }
    Some(Wish {
        seed,
        count,
        out: out?,
    })
}

fn write_samples(wish: &Wish) -> std::io::Result<()> {
    std::fs::create_dir_all(&wish.out)?;
    for (name, sample) in second::generator::samples(wish.seed, wish.count) {
        std::fs::write(wish.out.join(format!("{name}.job")), sample.bytes)?;
    }
    Ok(())
}

fn main() -> ExitCode {
    let words: Vec<String> = std::env::args().skip(1).collect();
    let Some(wish) = read_wish(&words) else {
        eprintln!("usage: generate [--seed S] [--count N] --out DIR");
        return ExitCode::from(2);
    };
    match write_samples(&wish) {
        Ok(()) => ExitCode::SUCCESS,
        Err(error) => {
            eprintln!("generate: {error}");
            ExitCode::FAILURE
        }
    }
}
