//! The command's arguments.

pub const USAGE: &str = "usage: starterbell-against-model [--seed N] [--seconds N] [--steps N] [--threads N]

Plays the worlds of seed N (1), N + 1 .. on the model and on the library, for at least so many seconds (60) and calls (100000), on so many threads (1).
The exit status is 0 where nothing differs, 1 where something does or a long run left something out, 2 for other arguments.";

pub struct Args {
    pub seed: u64,
    pub seconds: u64,
    pub steps: u64,
    pub threads: u64,
}

pub fn parse(mut words: impl Iterator<Item = String>) -> Result<Args, String> {
    let mut args = Args { seed: 1, seconds: 60, steps: 100_000, threads: 1 };
    while let Some(word) = words.next() {
        let place = match word.as_str() {
            "--seed" => &mut args.seed,
            "--seconds" => &mut args.seconds,
            "--steps" => &mut args.steps,
            "--threads" => &mut args.threads,
            other => return Err(format!("there is no argument '{other}'")),
        };
        let value = words.next().ok_or(format!("{word} needs a number"))?;
        *place = value.parse().map_err(|_| format!("{word} needs a whole number from 0 up, not '{value}'"))?;
    }
    if !(1..=256).contains(&args.threads) {
        return Err(format!("--threads needs 1 to 256, not {}", args.threads));
    }
    Ok(args)
}
