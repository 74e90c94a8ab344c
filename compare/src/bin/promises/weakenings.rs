//! Ways to promise less, each made on a copy of the sources: every one has to be found, and the copy as it is has no fault.

use crate::examine::Examined;
use crate::paths;
use crate::project::files_below;
use crate::say;
use std::fs;
use std::io;
use std::path::{Path, PathBuf};

/// A text in a file that becomes another. The file is looked for by its name anywhere in the crate; without a crate it is a path in the repository. Without an
/// old text the file is new.
struct Edit {
    krate: &'static str,
    file: &'static str,
    old: &'static str,
    new: &'static str,
}

struct Weakening {
    label: &'static str,
    edits: &'static [Edit],
    /// What a fault has to name: the weakened thing or its file.
    mentions: &'static str,
}

const fn edit(krate: &'static str, file: &'static str, old: &'static str, new: &'static str) -> Edit {
    Edit { krate, file, old, new }
}

const WEAKENINGS: &[Weakening] = &[
    // ---- hypotheses
    Weakening {
        label: "an absurd parameter of the module around four theorems",
        edits: &[edit(
            "counts",
            "Requests.antt",
            "module _ (replicas clients cells allowance : ℕ) (ws : List ℕ) where",
            "module _ (replicas clients cells allowance : ℕ) (ws : List ℕ) (never : ⊥) where",
        )],
        mentions: "two_per_replica",
    },
    Weakening {
        label: "a second module, with an absurd parameter, around one theorem",
        edits: &[edit(
            "counts",
            "Requests.antt",
            "  pub numbers : (c : ℕ) →",
            "  module _ (never : ⊥) where\n   pub numbers : (c : ℕ) →",
        )],
        mentions: "numbers",
    },
    Weakening {
        label: "a hypothesis of the promise",
        edits: &[edit(
            "promise",
            "Promise.antt",
            "pub promise : (replicas clients cells allowance : ℕ) (events : List ℕ) →",
            "pub promise : (replicas clients cells allowance : ℕ) (events : List ℕ) → clients ≡ 1 →",
        )],
        mentions: "promise :",
    },
    Weakening {
        label: "a hypothesis on a second line of a statement",
        edits: &[edit(
            "counts",
            "Requests.antt",
            "  pub present : (c : ℕ) → 1 ≤ (party_at (rack_after replicas clients cells allowance ws) c).op\n",
            "  pub present : (c : ℕ) → 1 ≤ (party_at (rack_after replicas clients cells allowance ws) c).op\n      → ⊥\n",
        )],
        mentions: "present",
    },
    Weakening {
        label: "a public function that requires something",
        edits: &[edit(
            "verdict",
            "lib.rt",
            "pub fn judge(s: &[u8]) -> Verdict\n",
            "pub fn judge(s: &[u8]) -> Verdict\n    requires { length s.now ≤ 4 }\n",
        )],
        mentions: "pub fn judge",
    },
    // ---- fields, constructors and clauses
    Weakening {
        label: "a starred line of the bench sheet removed",
        edits: &[
            edit(
                "sheet",
                "Sheet.antt",
                concat!(
                    "  pub early_5 : BytesSay\n",
                    "      (0x00 ∷ 0x01 ∷ 0x02 ∷ 0x02 ∷ 0x01 ∷ 0x0A ∷ 0x01 ∷ 0x00 ∷ 0x02 ∷ 0x0A ∷ 0x03 ∷ 0x00 ∷ [])\n",
                    "      (reads 1 2 ∷ told_by 1 (pos 5) ∷ writes 0 2 (pos 5) ∷ done_by 0 ∷ [])\n",
                    "      (unlawful 2)\n"
                ),
                "",
            ),
            edit("sheet", "Shown.antt", "      early_5 = unlawful_line refl refl refl refl refl refl tt;\n", ""),
        ],
        mentions: "early_5",
    },
    Weakening {
        label: "another line of the bench sheet removed",
        edits: &[
            edit("sheet", "Sheet.antt", "  pub number_largest : number_bytes 4294967295 ≡ 0xFF ∷ 0xFF ∷ 0xFF ∷ 0xFF ∷ 0x0F ∷ []\n", ""),
            edit("sheet", "Shown.antt", "      number_largest = refl;\n", ""),
        ],
        mentions: "number_largest",
    },
    Weakening {
        label: "what stands in lent memory after a write no longer said",
        edits: &[edit("number", "Number.antt", "  pub bytes : d' ≡ put_bytes d at bs\n", "")],
        mentions: "pub bytes",
    },
    Weakening {
        label: "only one fits, without that they are one",
        edits: &[edit("number", "OnlyOne.antt", "  pub next : next_in r ≡ next_in r'\n  pub same : r ≡ r'\n", "  pub next : next_in r ≡ next_in r'\n")],
        mentions: "SameNumber",
    },
    Weakening {
        label: "a lawful order that needn't respect the times",
        edits: &[edit("law", "Order.antt", "  pub respects : Pairs (λ x y. ¬ Before y x) l\n", "")],
        mentions: "Ordered",
    },
    Weakening {
        label: "an event that may do anything",
        edits: &[edit(
            "method",
            "Method.antt",
            "Does s held (Stop client) p = Stops s p\n",
            "Does s held (Stop client) p = s ≡ s\n",
        )],
        mentions: "Does",
    },
    Weakening {
        label: "a named type of the code that is narrower",
        edits: &[edit("quorum", "lib.rt", "pub type Set = u16;", "pub type Set = u8;")],
        mentions: "Set",
    },
    Weakening {
        label: "one clause of a definition changed",
        edits: &[edit("verdict", "Verdict.antt", "distinct (entries es) = distinct_from [] 0 es (entries es)", "distinct (entries es) = entries es")],
        mentions: "distinct",
    },
    Weakening {
        label: "a definition that only statements of another file are made of changed",
        edits: &[edit("counts", "Counts.antt", "(made_rack replicas clients cells) allowance ws).rack\n", "(made_rack replicas clients cells) 0 ws).rack\n")],
        mentions: "rack_after",
    },
    Weakening {
        label: "the limit of 2,048 entries changed",
        edits: &[edit("record", "Record.antt", "entry_limit = 2048\n", "entry_limit = 1024\n")],
        mentions: "entry_limit",
    },
    // ---- the code's types, constants and functions
    Weakening {
        label: "the limit of 2,048 entries changed in the code",
        edits: &[edit("record", "lib.rt", "pub const ENTRY_LIMIT: usize = 2048;", "pub const ENTRY_LIMIT: usize = 1024;")],
        mentions: "ENTRY_LIMIT",
    },
    Weakening {
        label: "an entry that doesn't keep the value told",
        edits: &[edit("record", "lib.rt", "    Told(Client, i32),\n", "    Told(Client, u8),\n")],
        mentions: "Told(Client, u8)",
    },
    Weakening {
        label: "a rack whose clients share one number",
        edits: &[edit("record", "lib.rt", "pub struct Client(pub u8);", "pub struct Client();")],
        mentions: "pub struct Client",
    },
    Weakening {
        label: "what a named type of an answer is made of wider",
        edits: &[edit(
            "number",
            "lib.rt",
            "pub type Number = Result<(u32, usize), Refusal>;",
            "pub type Number = Result<(u64, usize), Refusal>;",
        )],
        mentions: "pub type Number = Result<(u64",
    },
    Weakening {
        label: "a refusal of a named type that is another",
        edits: &[edit("number", "lib.rt", "use refusal::Refusal;\n", "pub enum Refusal {\n    Any = 21,\n}\n")],
        mentions: "Any = 21",
    },
    Weakening {
        label: "a refusal's number changed in the code",
        edits: &[edit("refusal", "lib.rt", "    TooShort = 20,\n", "    TooShort = 15,\n")],
        mentions: "TooShort = 15",
    },
    Weakening {
        label: "a refusal's number changed in its definition",
        edits: &[edit("refusal", "Number.antt", "paper_number TooShort = 20\n", "paper_number TooShort = 15\n")],
        mentions: "paper_number TooShort = 15",
    },
    Weakening {
        label: "a field of the type whose method is called narrower",
        edits: &[edit("chains", "lib.rt", "    pub next: [u16; ENTRY_LIMIT],\n", "    pub next: [u8; ENTRY_LIMIT],\n")],
        mentions: "pub next: [u8; ENTRY_LIMIT]",
    },
    Weakening {
        label: "what is lent to be called told nothing",
        edits: &[edit("input", "lib.rt", " × F.post say read ending tt }", " }")],
        mentions: "pub fn answer",
    },
    Weakening {
        label: "what is said of a call by its type under a word that isn't known",
        edits: &[edit("input", "lib.rt", " × F.post say read ending tt }", " × F.anything say read ending tt }")],
        mentions: "answer: the name F.anything is not known",
    },
    Weakening {
        label: "a parameter that hides a type",
        edits: &[edit("input", "lib.rt", "pub fn answer<F: FnOnce(&[u8], Ending)>", "pub fn answer<Ending, F: FnOnce(&[u8], Ending)>")],
        mentions: "the type parameter Ending has another meaning",
    },
    Weakening {
        label: "a type of a contract from elsewhere",
        edits: &[edit("input", "lib.rt", "ghost use Rattle.std.specs.Borrow.{Bor};\n", "ghost use Rattle.std.specs.Borrow.{Bor};\nghost use lib.Loose.{Ending};\n")],
        mentions: "the name Ending has 2 meanings",
    },
    Weakening {
        label: "a type of code for one of std",
        edits: &[edit("number", "lib.rt", "use refusal::Refusal;\n", "use refusal::Refusal;\n\npub struct Option();\n")],
        mentions: "lib.rt: Option is a word",
    },
    Weakening {
        label: "a public function that promises nothing",
        edits: &[edit("text", "lib.rt", "// Words, as bytes, and the place after them.\n", "pub fn take(n: u32) -> u32 {\n    n\n}\n\n// Words, as bytes, and the place after them.\n")],
        mentions: "the public function take",
    },
    Weakening {
        label: "a contract removed",
        edits: &[edit("verdict", "lib.rt", "\n    ensures { Judges (taken_for s.now) result }\n{", "\n{")],
        mentions: "judge has no contract",
    },
    // ---- what names mean
    Weakening {
        label: "a symbol that means another one",
        edits: &[edit("number", "Number.antt", ", ltb, leb, eqb, Option, ", ", leb as ltb, leb, eqb, Option, ")],
        mentions: "leb as ltb",
    },
    Weakening {
        label: "a case of the kit's library from another path",
        edits: &[edit("number", "Answers.antt", ", Option, Some, None, Ok, Err}\n", ", Option, Some, Ok, Err}\nuse lib.Loose.{None}\n")],
        mentions: "lib.Loose",
    },
    Weakening {
        label: "a symbol of the contracts from another path",
        edits: &[edit("number", "lib.rt", "ghost use Rattle.std.specs.Prelude.{◌≡◌, ", "ghost use lib.Loose.{◌≡◌};\nghost use Rattle.std.specs.Prelude.{")],
        mentions: "lib.Loose",
    },
    Weakening {
        label: "a definition behind another of the same name in its file",
        edits: &[edit(
            "promise",
            "Promise.antt",
            "use Rattle.law.specs.Order.{Lawful}\n",
            "use Rattle.law.specs.Operation.{Op}\n\nabbrev pub Lawful : List Op → Type 0\nLawful s = Unit {0}\n\n",
        )],
        mentions: "Lawful s = Unit",
    },
    Weakening {
        label: "a definition behind another of the same name in another crate",
        edits: &[
            edit("promise", "Promise.antt", "use Rattle.law.specs.Order.{Lawful}\n", "use Rattle.stamps.specs.Stamp.{Lawful}\n"),
            edit(
                "stamps",
                "Stamp.antt",
                "-- stamp (0, 0) with value 0\n",
                "abbrev pub Lawful : {A : Type 0} → A → Type 0\nLawful s = Unit {0}\n\n-- stamp (0, 0) with value 0\n",
            ),
        ],
        mentions: "Lawful s = Unit",
    },
    Weakening {
        label: "the language's absurdity hidden by a definition",
        edits: &[edit("number", "OnlyOne.antt", "-- ---- read_number\n", "abbrev ⊥ : Type 0\n⊥ = Unit {0}\n\n-- ---- read_number\n")],
        mentions: "⊥ = Unit",
    },
    Weakening {
        label: "a library's name that a file takes for another",
        edits: &[edit("number", "Number.antt", "use Rattle.std.specs.Prelude.{ℕ, ", "use Rattle.number.specs.laws.Steps as Rattle\nuse Rattle.std.specs.Prelude.{ℕ, ")],
        mentions: "the path Rattle.std",
    },
    Weakening {
        label: "names that a line brings without listing them",
        edits: &[edit("number", "OnlyOne.antt", "use Rattle.std.specs.Prelude.{ℕ, ", "use Kid.*\nuse Rattle.std.specs.Prelude.{ℕ, ")],
        mentions: "Kid.*",
    },
    Weakening {
        label: "a symbol of the contracts from another path, with two spaces",
        edits: &[
            edit("number", "lib.rt", "ghost use Rattle.std.specs.Prelude.{◌≡◌, ", "ghost  use lib.Loose.{◌≡◌};\nghost use Rattle.std.specs.Prelude.{"),
        ],
        mentions: "lib.Loose",
    },
    Weakening {
        label: "a symbol of the contracts from another path, with a line break",
        edits: &[
            edit("number", "lib.rt", "ghost use Rattle.std.specs.Prelude.{◌≡◌, ", "ghost\n    use lib.Loose.{◌≡◌};\nghost use Rattle.std.specs.Prelude.{"),
        ],
        mentions: "lib.Loose",
    },
    Weakening {
        label: "a symbol of the contracts from another path, with a comment",
        edits: &[
            edit("number", "lib.rt", "ghost use Rattle.std.specs.Prelude.{◌≡◌, ", "ghost /* why */ use lib.Loose.{◌≡◌};\nghost use Rattle.std.specs.Prelude.{"),
        ],
        mentions: "lib.Loose",
    },
    Weakening {
        label: "a ghost line that is no use line",
        edits: &[
            edit("number", "lib.rt", "ghost use Rattle.std.specs.Prelude.{◌≡◌, ", "ghost open lib.Loose;\nghost use Rattle.std.specs.Prelude.{◌≡◌, "),
        ],
        mentions: "not understood: ghost open",
    },
    Weakening {
        label: "the contracts' word for what a function answers from elsewhere",
        edits: &[
            edit("number", "lib.rt", "ghost use Rattle.std.specs.Prelude.{◌≡◌, ", "ghost use lib.Loose.{anything as result};\nghost use Rattle.std.specs.Prelude.{◌≡◌, "),
        ],
        mentions: "lib.rt: result is a word",
    },
    Weakening {
        label: "the contracts' word for memory as it stands from elsewhere",
        edits: &[
            edit("number", "lib.rt", "ghost use Rattle.std.specs.Prelude.{◌≡◌, ", "ghost use lib.Loose.{anything as now};\nghost use Rattle.std.specs.Prelude.{◌≡◌, "),
        ],
        mentions: "lib.rt: now is a word",
    },
    Weakening {
        label: "the contracts' word for a method's receiver from elsewhere",
        edits: &[
            edit("number", "lib.rt", "ghost use Rattle.std.specs.Prelude.{◌≡◌, ", "ghost use lib.Loose.{anything as self};\nghost use Rattle.std.specs.Prelude.{◌≡◌, "),
        ],
        mentions: "lib.rt: self is a word",
    },
    Weakening {
        label: "the sign for pairs from elsewhere, in code",
        edits: &[
            edit("number", "lib.rt", "ghost use Rattle.std.specs.Prelude.{◌≡◌, ", "ghost use lib.Loose.{anything as ◌×◌};\nghost use Rattle.std.specs.Prelude.{◌≡◌, "),
        ],
        mentions: "lib.rt: ◌×◌ is a word",
    },
    Weakening {
        label: "the word for types from elsewhere, in code",
        edits: &[
            edit("number", "lib.rt", "ghost use Rattle.std.specs.Prelude.{◌≡◌, ", "ghost use lib.Loose.{anything as Type};\nghost use Rattle.std.specs.Prelude.{◌≡◌, "),
        ],
        mentions: "lib.rt: Type is a word",
    },
    Weakening {
        label: "the sign for pairs means a choice",
        edits: &[
            edit("number", "Number.antt", "use Rattle.std.specs.Prelude.{ℕ, ", "use Rattle.std.specs.Prelude.{◌⊎◌ as ◌×◌}\nuse Rattle.std.specs.Prelude.{ℕ, "),
        ],
        mentions: "Number.antt: ◌×◌ is a word",
    },
    Weakening {
        label: "the word for types from elsewhere",
        edits: &[
            edit("number", "Number.antt", "use Rattle.std.specs.Prelude.{ℕ, ", "use lib.Loose.{x as Type}\nuse Rattle.std.specs.Prelude.{ℕ, "),
        ],
        mentions: "Number.antt: Type is a word",
    },
    Weakening {
        label: "the sign for pairs defined",
        edits: &[
            edit("number", "OnlyOne.antt", "-- ---- read_number\n", "abbrev pub ◌×◌ : Type 0 → Type 0 → Type 0\nA × B = Unit {0}\n\n-- ---- read_number\n"),
        ],
        mentions: "OnlyOne.antt: ◌×◌ is a word",
    },
    Weakening {
        label: "the sign for functions defined",
        edits: &[
            edit("number", "OnlyOne.antt", "-- ---- read_number\n", "abbrev pub ◌→◌ : Type 0\n◌→◌ = Unit {0}\n\n-- ---- read_number\n"),
        ],
        mentions: "OnlyOne.antt: ◌→◌ is a word",
    },
    Weakening {
        label: "the word for types defined",
        edits: &[
            edit("number", "OnlyOne.antt", "-- ---- read_number\n", "pub record Type : Unit where\n  pub one : Unit\n\n-- ---- read_number\n"),
        ],
        mentions: "OnlyOne.antt: Type is a word",
    },
    Weakening {
        label: "a type of code for the words of memory",
        edits: &[
            edit("record", "lib.rt", "pub struct Client(pub u8);", "pub struct u8();\npub struct Client(pub u8);"),
        ],
        mentions: "lib.rt: u8 is a word",
    },
    Weakening {
        label: "a module with a library's name",
        edits: &[
            edit("number", "Lib.antt", "pub mod Number\n", "pub mod Number\npub mod lib\n"),
            edit("", "crates/number/specs/lib/Dec.antt", "", "-- other comparisons\n"),
        ],
        mentions: "the module lib has the name of a library",
    },
    Weakening {
        label: "a module of a proof with a library's name",
        edits: &[
            edit("", "crates/number/proofs/mathlib/Core.antt", "", "-- other definitions\n"),
        ],
        mentions: "the module mathlib has the name of a library",
    },
    Weakening {
        label: "a public function under a second name",
        edits: &[
            edit("text", "lib.rt", "// Words, as bytes, and the place after them.\n", "pub use number::read_number as take;\n\n// Words, as bytes, and the place after them.\n"),
        ],
        mentions: "pub use take",
    },
    Weakening {
        label: "several names in one line of code, and names of one of them",
        edits: &[
            edit("text", "lib.rt", "// Words, as bytes, and the place after them.\n", "use number::{read_number, signed::{a, b}};\n\n// Words, as bytes, and the place after them.\n"),
        ],
        mentions: "not understood: use number",
    },
    Weakening {
        label: "a ruleset that is no list of names",
        edits: &[edit("text", "Paging.antt", "pub ruleset page_steps = (with_both, with_nothing)", "pub ruleset page_steps = with_both")],
        mentions: "not understood: pub ruleset",
    },
    Weakening {
        label: "a block of foreign functions in code",
        edits: &[
            edit("text", "lib.rt", "// Words, as bytes, and the place after them.\n", "extern \"C\" {\n    fn take(n: u32) -> u32;\n}\n\n// Words, as bytes, and the place after them.\n"),
        ],
        mentions: "not understood: extern",
    },
    Weakening {
        label: "a function that is assumed in code",
        edits: &[
            edit("text", "lib.rt", "// Words, as bytes, and the place after them.\n", "axiom fn take(n: u32) -> u32;\n\n// Words, as bytes, and the place after them.\n"),
        ],
        mentions: "not understood: axiom fn",
    },
    Weakening {
        label: "an implementation for a trait in code",
        edits: &[
            edit("text", "lib.rt", "// Words, as bytes, and the place after them.\n", "impl Take for Foo {\n    fn take(self) {}\n}\n\n// Words, as bytes, and the place after them.\n"),
        ],
        mentions: "not understood: impl Take",
    },
    Weakening {
        label: "a trait in code",
        edits: &[
            edit("text", "lib.rt", "// Words, as bytes, and the place after them.\n", "pub trait Take {\n    fn take(self);\n}\n\n// Words, as bytes, and the place after them.\n"),
        ],
        mentions: "not understood: pub trait",
    },
    Weakening {
        label: "braces without an end in code",
        edits: &[
            edit("text", "lib.rt", "// Words, as bytes, and the place after them.\n", "impl Foo {\n\n// Words, as bytes, and the place after them.\n"),
        ],
        mentions: "lib.rt: line",
    },
    // ---- theorems and the page
    Weakening {
        label: "a file of theorems that isn't proved any more",
        edits: &[edit("counts", "Lib.antt", "pub mod InUse\n", "")],
        mentions: "InUse.antt: no file above",
    },
    Weakening {
        label: "a file of public functions that isn't proved any more",
        edits: &[edit("rack", "lib.rt", "pub mod owed;\n", "")],
        mentions: "owed.rt: no file above",
    },
    Weakening {
        label: "a lemma in a proof that is assumed",
        edits: &[edit("counts", "Requests.antt", "ends_one : (c : ℕ)", "axiom ends_one : (c : ℕ)")],
        mentions: "has an axiom",
    },
    Weakening {
        label: "a theorem under another name",
        edits: &[edit(
            "verdict",
            "OnlyOne.antt",
            "  pub one_verdict : (v v' : Verdict) → Judges (taken_for s) v → Judges (taken_for s) v' → v ≡ v'\n  one_verdict v",
            "  pub single_verdict : (v v' : Verdict) → Judges (taken_for s) v → Judges (taken_for s) v' → v ≡ v'\n  single_verdict v",
        )],
        mentions: "one_verdict",
    },
    Weakening {
        label: "a theorem that is only a type's definition",
        edits: &[edit(
            "protocol",
            "Atomic.antt",
            "  pub atomic : (v : View) → Reached S v → Tagged v.ops\n  atomic v r = tagged S v (reached_keeps r)",
            "  abbrev pub atomic : Type 0\n  atomic = (v : View) → Reached S v → Tagged v.ops",
        )],
        mentions: "atomic",
    },
    Weakening {
        label: "a theorem that is only a field",
        edits: &[edit(
            "protocol",
            "Atomic.antt",
            "  pub atomic : (v : View) → Reached S v → Tagged v.ops\n  atomic v r = tagged S v (reached_keeps r)",
            "  pub record Claims : Type 0 where\n    pub atomic : (v : View) → Reached S v → Tagged v.ops",
        )],
        mentions: "atomic",
    },
    Weakening {
        label: "a theorem that is assumed",
        edits: &[edit(
            "protocol",
            "Atomic.antt",
            "  pub atomic : (v : View) → Reached S v → Tagged v.ops\n  atomic v r = tagged S v (reached_keeps r)",
            "  axiom pub atomic : (v : View) → Reached S v → Tagged v.ops",
        )],
        mentions: "atomic has no proof",
    },
    Weakening {
        label: "a theorem taken off the page of promises",
        edits: &[edit("", "docs/PROMISES.md", "| `promise_fresh` (Promise.antt) |", "| |")],
        mentions: "promise_fresh",
    },
    Weakening {
        label: "a call taken off the page of promises",
        edits: &[edit("", "docs/PROMISES.md", "| `judge(s)` |", "| |")],
        mentions: "the public function judge",
    },
    Weakening {
        label: "a must-fail edit taken off the page of promises",
        edits: &[
            edit("", "docs/PROMISES.md", "`judge_says_28`", "`judge`"),
        ],
        mentions: "judge_says_28.edit: docs/PROMISES.md",
    },
    Weakening {
        label: "a must-fail edit that changes another thing",
        edits: &[
            edit("", "crates/number/must-fail/seven_bits_short.edit", "new: buf[i] = (GROUP + m % 127) as u8;", "new: garbage"),
        ],
        mentions: "new: garbage",
    },
    Weakening {
        label: "a must-fail edit that nothing speaks of",
        edits: &[
            edit("", "crates/number/must-fail/unheard_of.edit", "", "# why\nfile: src/lib.rt\nold: a\nnew: b\n"),
        ],
        mentions: "unheard_of.edit: docs/PROMISES.md",
    },
    Weakening {
        label: "a file that a page names and that isn't there",
        edits: &[
            edit("", "docs/WHY-IT-HOLDS.md", "`atomic` (crates/protocol/proofs/theorems/Atomic.antt)", "`atomic` (crates/protocol/proofs/theorems/Atom.antt)"),
        ],
        mentions: "there is no crates/protocol/proofs/theorems/Atom.antt",
    },
    Weakening {
        label: "a theorem that isn't in the file that a page names",
        edits: &[
            edit("", "docs/WHY-IT-HOLDS.md", "`atomic` (crates/protocol/proofs/theorems/Atomic.antt)", "`atom` (crates/protocol/proofs/theorems/Atomic.antt)"),
        ],
        mentions: "Atomic.antt doesn't declare atom",
    },
];

/// A copy of what is looked at, removed when it is dropped.
struct Copy {
    root: PathBuf,
}

impl Drop for Copy {
    fn drop(&mut self) {
        // what can't be removed lies in the folder for temporary files, and no result hangs on it
        let _ = fs::remove_dir_all(&self.root);
    }
}

impl Copy {
    fn of(root: &Path) -> io::Result<Copy> {
        let copy = Copy { root: std::env::temp_dir().join(format!("promises-{}", std::process::id())) };
        if copy.root.exists() {
            fs::remove_dir_all(&copy.root)?;
        }
        let mut files: Vec<String> =
            ["crates.txt", "README.md", "docs/PROMISES.md", "docs/STATEMENTS.txt"].map(String::from).to_vec();
        files.extend(paths::PAGES.map(String::from));
        for ending in [".antt", ".rt", ".edit"] {
            let all = files_below(root, "crates", ending)?.into_iter().map(|(file, _)| file);
            files.extend(all.filter(|file| file.split('/').nth(2) != Some("out")));
        }
        for file in files {
            let to = copy.root.join(&file);
            fs::create_dir_all(to.parent().unwrap_or(&copy.root))?;
            fs::copy(root.join(&file), to)?;
        }
        Ok(copy)
    }

    fn faults(&self) -> io::Result<Vec<String>> {
        Examined::read(&self.root)?.faults(&self.root)
    }

    /// The one file that has the old text once, and its text: one of that name in any folder, or else any file of the crate, if it has moved.
    fn find(&self, edit: &Edit) -> io::Result<Option<(PathBuf, String)>> {
        if edit.krate.is_empty() {
            return with_text(vec![self.root.join(edit.file)], edit.old);
        }
        let base = self.root.join("crates").join(edit.krate);
        let definitions = [files_below(&base, "specs", ".antt")?, files_below(&base, "proofs", ".antt")?].concat();
        let all = [definitions, files_below(&base, "src", ".rt")?].concat();
        let (named, others): (Vec<_>, Vec<_>) =
            all.into_iter().map(|(_, path)| path).partition(|path| path.ends_with(edit.file));
        match with_text(named, edit.old)? {
            Some(found) => Ok(Some(found)),
            None => with_text(others, edit.old),
        }
    }

    /// What is found where the copy is weakened; it is then put back as it was. None where a text to change isn't there once.
    fn weakened(&self, weakening: &Weakening) -> io::Result<Option<Vec<String>>> {
        let mut before = Vec::new();
        for edit in weakening.edits {
            if edit.old.is_empty() {
                let path = self.root.join(edit.file);
                fs::create_dir_all(path.parent().unwrap_or(&self.root))?;
                fs::write(&path, edit.new)?;
                before.push((path, None));
                continue;
            }
            let Some((path, text)) = self.find(edit)? else { break };
            fs::write(&path, text.replace(edit.old, edit.new))?;
            before.push((path, Some(text)));
        }
        let faults = if before.len() == weakening.edits.len() { Some(self.faults()?) } else { None };
        for (path, text) in before.iter().rev() {
            match text {
                Some(text) => fs::write(path, text)?,
                None => fs::remove_file(path)?,
            }
        }
        Ok(faults)
    }
}

/// The file and its text, where just one of the files has the old text just once.
fn with_text(paths: Vec<PathBuf>, old: &str) -> io::Result<Option<(PathBuf, String)>> {
    let mut found = Vec::new();
    for path in paths {
        let text = fs::read_to_string(&path)?;
        let times = text.matches(old).count();
        found.extend(std::iter::repeat_n((path, text), times));
    }
    Ok(if found.len() == 1 { found.pop() } else { None })
}

/// Tries them all; prints those that were not found.
pub fn run(root: &Path) -> io::Result<bool> {
    let copy = Copy::of(root)?;
    let at_first = copy.faults()?;
    at_first.iter().for_each(|fault| say(&format!("promises: of the copy as it is: {fault}")));
    let mut wrong = at_first.len();
    for weakening in WEAKENINGS {
        let trouble = match copy.weakened(weakening)? {
            None => Some("its text isn't there exactly once"),
            Some(faults) if faults.is_empty() => Some("not found"),
            Some(faults) if !faults.iter().any(|fault| fault.contains(weakening.mentions)) => {
                Some("found, and not named")
            }
            Some(_) => None,
        };
        if let Some(trouble) = trouble {
            say(&format!("promises: {}: {trouble}", weakening.label));
            wrong += 1;
        }
    }
    let after = copy.faults()?;
    if after != at_first {
        say("promises: the copy isn't as it was");
        wrong += 1;
    }
    say(&format!("promises: {} weakenings tried, {wrong} faults", WEAKENINGS.len()));
    Ok(wrong == 0)
}
