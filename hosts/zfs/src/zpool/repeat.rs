//! `INTERVAL [COUNT]` behind the names of pools: what is told is told again and again.

use crate::call::Call;
use crate::failure::{Failure, Outcome};
use crate::usage::Usage;
use std::time::Duration;

/// How often something is told; once where there is no interval, and without end where the count is none.
#[derive(Clone, Copy, Debug, Default, PartialEq, Eq)]
pub struct Repeat {
    interval: Option<Duration>,
    count: Option<u64>,
}

/// A number as libzfs takes it there: digits, and points that don't end it.
fn number(word: &str) -> Option<f32> {
    let is_number = word.chars().all(|letter| letter.is_ascii_digit() || letter == '.') && !word.ends_with('.');
    word.parse().ok().filter(|_| is_number)
}

impl Repeat {
    /// Takes the numbers that stand last.
    pub fn take(operands: &mut Vec<String>, usage: Usage) -> Outcome<Repeat> {
        let mut numbers = Vec::new();
        while let Some(last) = operands.last().and_then(|word| number(word)).filter(|_| numbers.len() < 2) {
            if last == 0.0 {
                return Err(Failure::Usage(usage, "interval cannot be zero".into()));
            }
            numbers.push(last);
            operands.pop();
        }
        let interval = numbers.last().map(|seconds| Duration::try_from_secs_f32(*seconds).unwrap_or(Duration::MAX));
        let count = numbers.first().filter(|_| numbers.len() == 2).map(|count| *count as u64);
        Ok(Repeat { interval, count })
    }

    /// Tells it so often; the turn is a number from 0 on. A client that is gone ends it.
    pub fn run(self, call: &mut Call, tell: impl Fn(&mut Call, u64) -> Outcome) -> Outcome {
        for turn in 0.. {
            tell(call, turn)?;
            let is_last = self.count.is_some_and(|count| turn + 1 >= count);
            let Some(interval) = self.interval.filter(|_| !is_last) else { break };
            call.flush();
            if !call.pause(interval) {
                break;
            }
        }
        Ok(())
    }
}

#[cfg(test)]
mod tests {
    use super::*;
    use crate::usage::ZpoolCommand;

    #[test]
    fn numbers_that_stand_last_are_an_interval_and_a_count() {
        let take = |line: &str| {
            let mut operands: Vec<String> = line.split_whitespace().map(str::to_owned).collect();
            let repeat = Repeat::take(&mut operands, Usage::Zpool(ZpoolCommand::List)).map_err(|failure| failure.to_string())?;
            Ok::<_, String>((operands.join(" "), repeat))
        };
        let seconds = |number| Some(Duration::from_millis(number));
        assert_eq!(take("tank").unwrap(), ("tank".into(), Repeat::default()));
        assert_eq!(take("tank 0.5").unwrap(), ("tank".into(), Repeat { interval: seconds(500), count: None }));
        assert_eq!(take("1 4").unwrap(), (String::new(), Repeat { interval: seconds(1000), count: Some(4) }));
        assert!(take("tank 0").unwrap_err().starts_with("interval cannot be zero\n"));
        assert!(take("tank 0 0").is_err());
    }
}
