fn main() {
    isle_proved::build(&["rules/types.isle", "rules/lower.isle", "rules/addresses.isle"], "rules.rs");
}
