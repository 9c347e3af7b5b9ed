fn main() {
    isle_proved::build(&["src/rules.isle"], "rules.rs");
}
