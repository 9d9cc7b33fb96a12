//! docs/TOOL.md names what the tool has; `scripts/documents` runs its examples.

use std::fs;
use std::path::Path;

use super::outcome;

fn document() -> String {
    let path = Path::new(env!("CARGO_MANIFEST_DIR")).join("../docs/TOOL.md");
    fs::read_to_string(&path).unwrap_or_else(|error| panic!("{}: {error}", path.display()))
}

#[test]
fn every_command_option_and_status_is_named() {
    let (document, (_, help, _)) = (document(), outcome(&["help"], &[]));
    let commands = help.lines().skip_while(|line| *line != "Commands:").skip(1).take_while(|line| !line.is_empty());
    for command in commands {
        let name = command.split_whitespace().next().expect("a name");
        let (_, text, _) = outcome(&["help", name], &[]);
        let usage = text.lines().next().and_then(|line| line.strip_prefix("Usage: shearcotter ")).expect("usage");
        let words = usage.replace(" [OPTION]...", "");
        assert!(document.contains(&format!("| `{words}` |")), "{words}");
        let options = text.split_whitespace().filter(|word| word.starts_with("--"));
        for option in options.map(|word| word.trim_matches(|c: char| !c.is_alphanumeric() && c != '-')) {
            assert!(document.contains(&format!("`{option}")), "{name} {option}");
        }
    }
    for (number, meaning) in help
        .lines()
        .skip_while(|line| *line != "Exit status:")
        .skip(1)
        .map_while(|line| line.trim_start().split_once("  "))
    {
        assert!(document.contains(&format!("| {number} | {meaning} |")), "{number} {meaning}");
    }
}
