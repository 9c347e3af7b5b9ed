//! Trees in the form of `isle lower`, written by hand.

use upstream_trees::trees;

fn tree_of(texts: &[&str]) -> String {
    let texts: Vec<String> = texts.iter().map(|text| text.to_string()).collect();
    trees(&texts).unwrap().text
}

#[test]
fn constants() {
    let text = "(decl f (u8) u8) (rule 1 (f 1) 10) (rule (f x) x)";
    let tree = "term f
  b0 = arg 0
  b1 = int 10 u8
  match b0
    int 1 u8:
      return b1
  return b0
";
    assert_eq!(tree_of(&[text]), tree);
}

#[test]
fn variants_of_two_files() {
    let types = "(type E (enum (A (x u8)) (B (x u8) (y u8))))";
    let rules = "(decl f (E) u8) (rule (f (E.A x)) x) (rule (f (E.B _ y)) y)";
    let tree = "term f
  b0 = arg 0
  b1 = field 0 of b0 variant 0
  b2 = field 0 of b0 variant 1
  b3 = field 1 of b0 variant 1
  match b0
    variant E.A b1:
      return b1
    variant E.B b2 b3:
      return b3
";
    assert_eq!(tree_of(&[types, rules]), tree);
}

#[test]
fn extractors_and_calls() {
    let text = "(decl half (u8) u8) (extern extractor half half)
        (decl next (u8) u8) (extern constructor next next)
        (decl f (u8) u8) (rule 1 (f (half x)) (next x)) (rule (f x) x)";
    let tree = "term f
  b0 = arg 0
  b1 = extract half b0
  b2 = unwrap b1
  b3 = call next #1 b2
  bind b1
  match b1
    some b2:
      bind b3
      return b3
  return b0
";
    assert_eq!(tree_of(&[text]), tree);
}

#[test]
fn what_the_original_refuses() {
    let text = "(decl f (u8) u8) (rule (f 1) 10) (rule (f 1) 11)".to_string();
    let errors = trees(&[text]).err().unwrap();
    assert_eq!(errors.len(), 1);
    assert!(errors[0].contains("Overlap"), "{errors:?}");
}

// 255 and -1 are the same number of `u8`, and the original takes them for two.
#[test]
fn literals_that_their_type_does_not_have() {
    let text =
        "(decl f (u8) u8) (rule 1 (f 256) 1) (rule (f 255) -1) (decl g (i64) u8) (rule (g -1) 1)";
    let notes = trees(&[text.to_string()]).unwrap().notes;
    assert_eq!(
        notes,
        ["term f has literals that their type doesn't have: -1 of u8, 256 of u8"]
    );
}
