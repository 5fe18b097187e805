//! The one argument that a benchmark takes.

/// How many runs `--runs N` asks for; one where there is no argument.
pub fn runs(arguments: &[String]) -> Result<usize, String> {
    match arguments {
        [] => Ok(1),
        [name, count] if name == "--runs" => match count.parse() {
            Ok(runs) if runs > 0 => Ok(runs),
            _ => Err(format!("--runs wants a number from 1 on, not `{count}`")),
        },
        [name] if name == "--runs" => Err("--runs wants a number".into()),
        _ => Err(format!("unknown arguments `{}`; there is only `--runs N`", arguments.join(" "))),
    }
}

#[cfg(test)]
mod tests {
    use super::runs;

    fn asked(line: &str) -> Result<usize, String> {
        runs(&line.split_whitespace().map(String::from).collect::<Vec<_>>())
    }

    #[test]
    fn numbers() {
        assert_eq!(asked(""), Ok(1));
        assert_eq!(asked("--runs 5"), Ok(5));
    }

    #[test]
    fn mistakes() {
        for line in ["--runs", "--runs 0", "--runs -1", "--runs five", "--runs 5 6", "5", "--run 5"] {
            assert!(asked(line).is_err(), "{line}");
        }
    }
}
