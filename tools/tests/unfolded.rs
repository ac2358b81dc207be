//! What is to be known in one place is unfolded there alone; and how that is seen, by hand.

use tools::files::{read, top};
use tools::unfolded::{unfolding, unfolds};

/// Request R-3: that the choice of a caller who names none is last. The proof of `default_choice` says no more than the
/// definition's name, and the example is not public.
#[test]
fn the_default_choice_is_known_in_falls_alone() {
    let falls = |file: &str| read(&top().join("crates/falls").join(file)).expect("a file of falls");
    assert!(
        falls("specs/Falls.antt").contains("\nunfoldable pub default_choice : ShortMonth\n"),
        "it is shut"
    );
    assert!(
        falls("proofs/Laws/Examples.antt").contains("\ndefault_shows : falls default_choice "),
        "not public"
    );
    assert_eq!(
        unfolding(&top(), "default_choice").expect("files"),
        ["falls/proofs/Laws/Examples.antt", "falls/proofs/choice/default_choice/Answers.antt"]
    );
}

#[test]
fn files_by_hand() {
    assert!(unfolds("law : a\nunfolding one two\nlaw = refl\n", "two"));
    assert!(unfolds("  unfolding two\n", "two"));
    assert!(unfolds("law = (unfold two in refl)\n", "two"));
    assert!(!unfolds("use a.{two}\nlaw : two ≡ 2\nlaw = refl\n", "two"));
    assert!(!unfolds("unfolding one -- two\n", "two"));
    assert!(!unfolds("unfolding twofold\n-- unfolding two\n", "two"));
    assert!(!unfolds("two = unfolding one\n", "two"));
    assert!(unfolds("#[tactic(auto, unfolding(low::specs::A::one, low::specs::A::two))]\n", "two"));
    assert!(unfolds("#![tactic(auto, unfolding(crate::specs::A::two))]\n", "two"));
    assert!(!unfolds("#[tactic(auto, unfolding(low::specs::A::twofold))]\n", "two"));
    assert!(!unfolds("// unfolding(low::specs::A::two)\n", "two"));
}

/// A rule's day is unfolded by its function's attribute, and by a law.
#[test]
fn code_and_proofs_are_looked_at() {
    assert_eq!(
        unfolding(&top(), "to_day").expect("files"),
        ["occurrences/proofs/Laws/Waits.antt", "occurrences/src/waiting.rt"]
    );
}
