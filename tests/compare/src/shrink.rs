//! The shortest script that still fails, found by dropping lines.

/// Drops ever smaller runs of lines as long as the script still fails, until no single line can go.
pub fn shortest(script: Vec<String>, fails: impl Fn(&[String]) -> bool) -> Vec<String> {
    let mut script = script;
    let mut run = script.len() / 2;
    while run > 0 {
        let shorter = without_runs(&script, run, &fails);
        let dropped = shorter.len() < script.len();
        script = shorter;
        if run > 1 || !dropped {
            run /= 2;
        }
    }
    script
}

/// The script without each run of that many lines that can go, from the end on, as later lines matter least.
fn without_runs(script: &[String], run: usize, fails: &impl Fn(&[String]) -> bool) -> Vec<String> {
    let mut kept = script.to_vec();
    let mut end = kept.len();
    while end > 0 {
        let from = end.saturating_sub(run);
        let shorter = [&kept[..from], &kept[end..]].concat();
        if fails(&shorter) {
            kept = shorter;
        }
        end = from;
    }
    kept
}

#[cfg(test)]
mod tests {
    use super::*;

    #[test]
    fn only_the_lines_that_matter_stay() {
        let script: Vec<String> = (0..50).map(|i| i.to_string()).collect();
        let fails = |s: &[String]| ["7", "8", "31"].iter().all(|&x| s.iter().any(|y| y == x));
        assert_eq!(shortest(script, fails), ["7", "8", "31"]);
    }
}
