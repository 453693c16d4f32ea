//! The texts of the workloads: made in code, the same at each run.

/// Words of a picking list.
const WORDS: [&str; 32] = [
    "bolt",
    "a",
    "washer",
    "hexagon",
    "of",
    "zinc",
    "shelf",
    "the",
    "count",
    "is",
    "box",
    "in",
    "pallet",
    "and",
    "scanner",
    "label",
    "M8",
    "to",
    "left",
    "bin",
    "forwarded",
    "at",
    "rack",
    "with",
    "thread,",
    "stainless",
    "row",
    "two",
    "damaged.",
    "returned",
    "on",
    "order",
];

/// The same in Japanese; U+3000 stands after a full stop.
const JAPANESE: [&str; 24] = [
    "倉庫",
    "の",
    "在庫",
    "を",
    "確認",
    "します。\u{3000}",
    "ボルト",
    "と",
    "ナット",
    "は",
    "棚",
    "に",
    "あります。\u{3000}",
    "箱",
    "が",
    "不足",
    "しています、",
    "ラベル",
    "番号",
    "読み取り",
    "ください。\u{3000}",
    "数量",
    "部品",
    "検品",
];

/// Pseudo-random numbers, the same at each run.
pub struct Random(u64);

impl Random {
    pub fn new() -> Random {
        Random(1)
    }

    /// A number below `bound`.
    pub fn below(&mut self, bound: usize) -> usize {
        self.0 = self.0.wrapping_mul(6_364_136_223_846_793_005);
        self.0 = self.0.wrapping_add(1_442_695_040_888_963_407);
        (self.0 >> 33) as usize % bound
    }

    pub fn word(&mut self) -> &'static str {
        WORDS[self.below(WORDS.len())]
    }
}

/// Words with one space between them.
pub fn prose(bytes: usize) -> String {
    let mut random = Random::new();
    grown(bytes, |text| {
        text.push_str(random.word());
        text.push(' ');
    })
}

/// Japanese sentences.
pub fn japanese(bytes: usize) -> String {
    let mut random = Random::new();
    grown(bytes, |text| {
        text.push_str(JAPANESE[random.below(JAPANESE.len())]);
    })
}

/// Lines of words with tabs between them; some are wider than 40 columns.
pub fn tabbed(bytes: usize) -> String {
    let mut random = Random::new();
    grown(bytes, |text| {
        for _ in 0..2 + random.below(5) {
            text.push_str(random.word());
            text.push('\t');
        }
        text.push_str(random.word());
        text.push('\n');
    })
}

/// One word without a break.
pub fn word(bytes: usize) -> String {
    let mut random = Random::new();
    grown(bytes, |text| {
        text.push((b'a' + random.below(26) as u8) as char)
    })
}

/// Words for one line of a cell, of at most this many columns.
pub fn cell_line(random: &mut Random, columns: usize) -> String {
    let mut line = random.word().to_string();
    while line.len() < columns / 2 {
        line.push(' ');
        line.push_str(random.word());
    }
    line.truncate(columns);
    line
}

/// Adds to a text until it has that many bytes, and cuts off what is over.
fn grown(bytes: usize, mut add: impl FnMut(&mut String)) -> String {
    let mut text = String::new();
    while text.len() < bytes {
        add(&mut text);
    }
    while text.len() > bytes {
        text.pop();
    }
    text
}
