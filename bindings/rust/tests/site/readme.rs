//! That the programs of README and USING are the ones that are built and run.

const README: &str = include_str!("../../../../README.md");
const USING: &str = include_str!("../../../../docs/USING.md");

/// A document's blocks of a language.
fn blocks(document: &'static str, language: &str) -> Vec<&'static str> {
    let begin = format!("```{language}\n");
    let blocks = document.split(&begin).skip(1).map(|rest| {
        let (block, _) = rest.split_once("```").expect("its end");
        block
    });
    blocks.collect()
}

#[test]
fn the_first_use_from_rust_is_an_example() {
    assert_eq!(blocks(README, "rust"), [include_str!("../../examples/append.rs")]);
}

#[test]
fn the_uses_from_rust_are_the_examples() {
    let examples = [
        include_str!("../../examples/first.rs"),
        include_str!("../../examples/volume.rs"),
        include_str!("../../examples/paging.rs"),
        include_str!("../../examples/fresh.rs"),
        include_str!("../../examples/repair.rs"),
        include_str!("../../examples/pulses.rs"),
    ];
    assert_eq!(blocks(USING, "rust"), examples);
}

#[test]
fn the_uses_from_c_stand_in_the_programs() {
    let programs =
        [include_str!("../../../c/first.c"), include_str!("../../../c/opened.c"), include_str!("../../../c/pulses.c")];
    let blocks = blocks(USING, "c");
    assert_eq!(blocks.len(), programs.len());
    for (program, block) in programs.iter().zip(blocks) {
        let (_, function) = block.split_once("\n\n").expect("an include and a function");
        assert!(program.contains(function));
    }
}
