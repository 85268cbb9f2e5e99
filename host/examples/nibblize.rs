//! A flat disk of 143,360 bytes written as a nibble stream: `cargo run --example nibblize -- DISK STREAM`.
//! With `--random` in the place of DISK, a disk of pseudo-random bytes is made first and kept as STREAM with `.dsk` behind it.

use std::process::ExitCode;

fn run(from: &str, to: &str) -> Result<(), String> {
    let disk = if from == "--random" {
        let mut state = 1u32;
        let disk: Vec<u8> = (0..143_360)
            .map(|_| {
                state = state.wrapping_mul(1_664_525).wrapping_add(1_013_904_223);
                (state >> 24) as u8
            })
            .collect();
        let kept = format!("{to}.dsk");
        std::fs::write(&kept, &disk).map_err(|e| format!("{kept}: {e}"))?;
        disk
    } else {
        std::fs::read(from).map_err(|e| format!("{from}: {e}"))?
    };
    let stream = dos33::nibblize(&disk).map_err(|refusal| format!("{from}: refused: {refusal}"))?;
    std::fs::write(to, stream).map_err(|e| format!("{to}: {e}"))
}

fn main() -> ExitCode {
    let arguments: Vec<String> = std::env::args().skip(1).collect();
    let [from, to] = &arguments[..] else {
        eprintln!("nibblize DISK STREAM, or nibblize --random STREAM");
        return ExitCode::from(2);
    };
    match run(from, to) {
        Ok(()) => ExitCode::SUCCESS,
        Err(text) => {
            eprintln!("{text}");
            ExitCode::from(1)
        }
    }
}
