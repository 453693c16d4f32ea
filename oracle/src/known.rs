//! Calls whose answers were worked out by hand: places where the prose of requests 2.1 and 2.2
//! can be misread, each smallest refusal 10, and what is near a refusal and is none.

use crate::record::Kind::{self, Columns, Subrender, Vertical};

/// What it shows; the call; width, flags and annotation; the inputs; the sheet or refusal.
pub type Known = (
    &'static str,
    Kind,
    [u8; 3],
    &'static [&'static str],
    Result<&'static str, u8>,
);

/// The calls of request 2.1, inputs and sheets in hexadecimal.
pub const CALLS: [Known; 43] = [
    (
        "A hanging cell's lines are taken as they are: only C and K cells are filled and stretched",
        Columns,
        [5, 2, 0],
        &["480002000056000c000002014c00055300020061", ""],
        Ok("48000200024c00055300020061420003000000"),
    ),
    (
        "A V takes the place of the first cell ahead whose position is not smaller, equal or not; that cell is lost, lines, span and all",
        Columns,
        [5, 2, 0],
        &[
            "480002000056000c000101014c00055300020076",
            "430009014c000553000200614b000a01024c00055300020062",
        ],
        Ok("48000200024c00095300060061e294827642000400000000"),
    ),
    (
        "Past the cells a filling seat comes first, also one of no columns, which still gets its edge",
        Columns,
        [5, 2, 0],
        &["480002000056000c000101014c00055300020076", ""],
        Ok("48000200024c000853000500e2948276420003000000"),
    ),
    (
        "The row's width grows only where position + width is *above* reach; if it just meets it, the border is too short",
        Columns,
        [5, 2, 0],
        &[
            "480002000056000c000101014c00055300020076",
            "430009014c00055300020061",
        ],
        Ok("48000200024c00095300060061e29482764200020000"),
    ),
    (
        "A V that takes a cell's place never widens the row",
        Columns,
        [5, 2, 0],
        &["480002000056000e000003014c000753000400767676", "43000101"],
        Ok("48000200024c0007530004007676764200020000"),
    ),
    (
        "Two V at one place: the later one stays",
        Columns,
        [5, 2, 0],
        &[
            "480002000056000c000001014c0005530002007656000c000001014c00055300020077",
            "",
        ],
        Ok("48000200024c000553000200774200020000"),
    ),
    (
        "V fields need no order; a later V can take a filling seat",
        Columns,
        [5, 2, 0],
        &[
            "480002000056000c000201014c0005530002007656000c000001014c00055300020077",
            "",
        ],
        Ok("48000200024c00095300060077e294827642000400000000"),
    ),
    (
        "The share is rounded down and may be 0: the first line stands in the border",
        Columns,
        [5, 2, 0],
        &["4800020000", "4b000a01024c00055300020061"],
        Ok("480002000147000b000001000000530002006156000400000101"),
    ),
    (
        "The line in the hole is used up",
        Columns,
        [5, 2, 0],
        &[
            "4800020000",
            "4b001a01024c000553000200614c000553000200624c00055300020063",
        ],
        Ok("48000200024c0005530002006147000b000001000000530002006256000c000001014c00055300020063"),
    ),
    (
        "A line without pieces makes no hole (B comes out, not G)",
        Columns,
        [5, 2, 0],
        &["4800020000560007000001024c0000", ""],
        Ok("4800020001420002000056000400000101"),
    ),
    (
        "a missing line makes a hole of blanks",
        Columns,
        [5, 2, 0],
        &["480002000056000400000102", ""],
        Ok("480002000147000b000001000000530002002056000400000101"),
    ),
    (
        "Each piece is its own hole, names too; pieces with equal annotations are not joined",
        Columns,
        [5, 2, 0],
        &[
            "480002000142000400000000",
            "4b000f02024c000a5300020061530002006243000101",
        ],
        Ok(
            "4800020002420005000000020047001500000400000a00000053000200610001530002006256000400000201",
        ),
    ),
    (
        "A missing line is blanks of the call's annotation, also where the seat has a pattern",
        Columns,
        [5, 6, 0],
        &[
            "480002000142000400000000",
            "4b000f01024c000553000200614200020001430011014c000553000200784c00055300020079",
        ],
        Ok(
            "4800020004420004000002004c00095300060061e29482784c000b53000800e29482e294827947000d000003010a000000530002002056000400000101",
        ),
    ),
    (
        "A border in a hole keeps its annotation (into_tagged_line)",
        Columns,
        [5, 2, 2],
        &["4800020000", "4b000701024200020103"],
        Ok("480002000147000d02000100000053000401e294bc56000400000101"),
    ),
    (
        "in a row line it takes the call's (to_string)",
        Columns,
        [5, 2, 2],
        &["4800020000", "430006014200020103"],
        Ok("48000200024c000753000402e294bc4200020200"),
    ),
    (
        "Chopped on both sides a join becomes │",
        Columns,
        [5, 2, 0],
        &["480002000142000400000000", "4b000201024b00020102"],
        Ok(
            "48000200024200040000020047001400000300040000005300020020000253000200205600040000010156000400020101",
        ),
    ),
    (
        "Without a border above there are no joins, and a plain ─ is not chopped",
        Columns,
        [5, 2, 0],
        &["48000200014c00055300020074", "430001014b00020102"],
        Ok("48000200024c0005530002007447000d0000030000000002530002002056000400020101"),
    ),
    (
        "Each hole chops beside itself, also under its neighbour: segment 0 is ┘ though hidden",
        Columns,
        [5, 6, 0],
        &["4800020000", "4b000f02024c000553000201204200020001"],
        Ok("48000200014700130000020b00000053000201200001530002002056000400000201"),
    ),
    (
        "The hole stands at the seat's place (2), V keeps the cell's position (3)",
        Columns,
        [5, 2, 0],
        &["480002000056000400000101", "430001024b00020102"],
        Ok("480002000147000e000004000000000002530002002056000400030101"),
    ),
    (
        "Handed out in the order of the seats, not of positions",
        Columns,
        [5, 2, 0],
        &[
            "48000200005600040003020156000400000102",
            "430001014b00020102",
        ],
        Ok(
            "4800020001470016000005000000000000025300020020000453000200205600040002010156000400000101",
        ),
    ),
    (
        "Collapsing takes a hanging cell's first and last border off in each row anew; the last one though it hangs on",
        Columns,
        [5, 6, 0],
        &[
            "4800020001420002000056001e0000010242000200024c000553000200614c000553000200624200020001",
            "",
        ],
        Ok("480002000342000200024c0005530002006147000b000001010000530002006256000400000101"),
    ),
    (
        "A cell that a V replaced does not count for 6",
        Columns,
        [5, 6, 0],
        &["480002000056000400000101", "4300050142000100"],
        Ok("48000200014200020000"),
    ),
    (
        "a V that starts with a border does",
        Columns,
        [5, 6, 0],
        &["48000200005600080000010142000100", "43000101"],
        Err(6),
    ),
    (
        "Segments under a hole of the last border are joined",
        Columns,
        [5, 2, 0],
        &[
            "480002000147000d00000300000000015300020061",
            "4300010143000101",
        ],
        Ok("480002000247000d0000030002000001530002006142000400000100"),
    ),
    (
        "A border with holes in a row (or guest) becomes one text: hole texts stay, their annotations and names go",
        Columns,
        [5, 2, 0],
        &[
            "4800020000",
            "43001602470012010002000000004600016e00005300020261",
        ],
        Ok("48000200024c00085300050061e29480420003000000"),
    ),
    (
        "A padded new border keeps them",
        Columns,
        [3, 3, 0],
        &["4800020000", "4b000e02024c00094600016e5300020261"],
        Ok("48000200014c000f4600016e530002026153000300202056000400000201"),
    ),
    (
        "Without names pieces stay apart",
        Subrender,
        [5, 2, 0],
        &[
            "4800020000",
            "48000200014c000a53000200615300020062",
            "500000",
        ],
        Ok("48000200014c000a53000200615300020062"),
    ),
    (
        "6 comes before 10",
        Columns,
        [5, 6, 0],
        &["4800020000", "43000501420001004b00080102420003000000"],
        Err(6),
    ),
    (
        "10a: a seat short of lines is wider than the row",
        Columns,
        [5, 2, 0],
        &["480002000056000400000401", "43000101430004014c0000"],
        Err(10),
    ),
    (
        "10b: holes out of order in a cell",
        Columns,
        [5, 2, 0],
        &["4800020000", "4300120147000e0000010000014600000000460000"],
        Err(10),
    ),
    (
        "10b in append_vert_row",
        Vertical,
        [5, 2, 0],
        &["4800020000", "4300120147000e0000010000014600000000460000"],
        Err(10),
    ),
    (
        "10b in a guest",
        Subrender,
        [5, 2, 0],
        &[
            "4800020000",
            "480002000147000e0000010000014600000000460000",
            "500000",
        ],
        Err(10),
    ),
    (
        "10b in a hanging cell",
        Columns,
        [5, 2, 0],
        &[
            "48000200005600150000010147000e0000010000014600000000460000",
            "",
        ],
        Err(10),
    ),
    (
        "10c: a line wider than its cell",
        Columns,
        [5, 2, 0],
        &["4800020000", "4b00080102420003000000"],
        Err(10),
    ),
    (
        "10c: a hanging cell wider than the row",
        Columns,
        [5, 2, 0],
        &["480002000056000400000202", "43000101"],
        Err(10),
    ),
    (
        "10c: without a wide line",
        Columns,
        [5, 2, 0],
        &["48000200014c0005530002007456000400010102", "43000101"],
        Err(10),
    ),
    (
        "No refusal: holes out of order in a border that collapsing takes off",
        Columns,
        [5, 6, 0],
        &[
            "48000200014200020000",
            "4300120147000e0000010000014600000000460000",
        ],
        Ok("480002000242000200004200020000"),
    ),
    (
        "No refusal: holes out of order in a line that becomes holes",
        Columns,
        [5, 2, 0],
        &["4800020000", "4b0013010247000e0000010000014600000000460000"],
        Ok("480002000147001700000100000053000400e294800001460000000146000056000400000101"),
    ),
    (
        "No refusal: holes out of order in a guest line without a prefix",
        Subrender,
        [5, 2, 0],
        &[
            "4800020000",
            "48000200024c000047000e0000010000014600000000460000",
            "500000",
        ],
        Ok("48000200014c0000"),
    ),
    (
        "No refusal: a seat wider than the row that has its lines",
        Columns,
        [5, 2, 0],
        &["4800020000560007000004014c0000", "43000101430004014c0000"],
        Ok("48000200024c000853000500e294822042000400000000"),
    ),
    (
        "No refusal: a seat wider than the row that has a pattern",
        Columns,
        [5, 6, 0],
        &[
            "480002000056000c000004014c00004200020000",
            "43000101430007014c00004c0000",
        ],
        Ok("48000200034c000853000500e29482204c00095300060020e294822042000400000000"),
    ),
    (
        "A table: the first row hangs on",
        Columns,
        [3, 6, 0],
        &[
            "480002000142000400000000",
            "4b001a01024c000553000201614c000553000201624c00055300020163430009014c00055300020078",
        ],
        Ok(
            "4800020003420004000002004c000d530002016153000500e294827847000d000003000a000000530002016256000c000001014c00055300020163",
        ),
    ),
    (
        "A table: the second row has a stand-in",
        Columns,
        [3, 6, 0],
        &[
            "4800020003420004000002004c000d530002016153000500e294827847000d000003000a000000530002016256000c000001014c00055300020163",
            "43000101430009014c00055300020079",
        ],
        Ok(
            "4800020005420004000002004c000d530002016153000500e294827847000d000003000700000053000201624c000d530002016353000500e294827942000400000100",
        ),
    ),
];

/// The calls of request 2.2: names that wait.
pub const NAMED_CALLS: [Known; 18] = [
    (
        "Waiting names stand before the prefix, and all equal neighbours of the line join",
        Subrender,
        [5, 2, 0],
        &[
            "48000200004600016e",
            "48000200014c000a53000200615300020062",
            "5000013e",
        ],
        Ok("48000200014c000b4600016e530004003e6162"),
    ),
    (
        "A guest's border, now text, takes the names",
        Subrender,
        [5, 2, 0],
        &["48000200004600016e", "48000200014200020000", "500000"],
        Ok("48000200014c000b4600016e53000400e29480"),
    ),
    (
        "a border that the call adds does not, padded",
        Vertical,
        [1, 3, 0],
        &["48000200004600016e", ""],
        Ok("48000200014c000753000400e294804600016e"),
    ),
    (
        "nor not padded",
        Vertical,
        [1, 2, 0],
        &["48000200004600016e", ""],
        Ok("480002000142000200004600016e"),
    ),
    (
        "A row's first line takes them, in the order of the fields",
        Columns,
        [5, 2, 0],
        &["48000200004600016e4600016d", "430009014c00055300020061"],
        Ok("48000200024c000d4600016e4600016d53000200614200020000"),
    ),
    (
        "Only the first line takes them",
        Vertical,
        [1, 0, 0],
        &[
            "48000200004600016e",
            "43001101 4c00055300020061 4c00055300020062",
        ],
        Ok("48000200024c00094600016e53000200614c00055300020062"),
    ),
    (
        "A border comes first: the line behind it takes them",
        Vertical,
        [1, 2, 0],
        &["48000200004600016e", "43000101 430009014c00055300020061"],
        Ok("480002000342000200054c00094600016e53000200614200020000"),
    ),
    (
        "A row without lines leaves them waiting, before what hangs",
        Columns,
        [5, 2, 0],
        &["48000200004600016e56000400000102", ""],
        Ok("480002000147000b00000100000053000200204600016e56000400000101"),
    ),
    (
        "A call without lines hands them on",
        Subrender,
        [5, 2, 0],
        &["48000200004600016e56000400000102", "4800020000", "500000"],
        Ok("48000200004600016e56000400000102"),
    ),
    (
        "A guest's names are dropped",
        Subrender,
        [5, 2, 0],
        &["4800020000", "48000200014c000553000200614600016e", "500000"],
        Ok("48000200014c00055300020061"),
    ),
    (
        "A line without pieces takes them too",
        Subrender,
        [5, 2, 0],
        &[
            "480002000046000046000046000161",
            "48000200014c0000",
            "500000",
        ],
        Ok("48000200014c000a46000046000046000161"),
    ),
    (
        "Padding comes after them",
        Subrender,
        [2, 3, 0],
        &["48000200004600016e", "48000200014c0000", "500000"],
        Ok("48000200014c000a4600016e530003002020"),
    ),
    (
        "A guest's names are checked",
        Subrender,
        [5, 2, 0],
        &["4800020000", "48000200004600010a", "500000"],
        Err(3),
    ),
    (
        "and so are the old sheet's",
        Columns,
        [5, 2, 0],
        &["48000200004600010a", ""],
        Err(3),
    ),
    (
        "An F between lines is refused",
        Columns,
        [5, 2, 0],
        &["48000200024c00004600016e4c0000", ""],
        Err(1),
    ),
    (
        "An F after a V is refused",
        Columns,
        [5, 2, 0],
        &["4800020000560004000001024600016e", ""],
        Err(1),
    ),
    (
        "An F in a cell is refused",
        Columns,
        [5, 2, 0],
        &["4800020000", "430005014600016e"],
        Err(1),
    ),
    (
        "An F in a hanging cell is refused",
        Columns,
        [5, 2, 0],
        &["4800020000560008000001014600016e", ""],
        Err(1),
    ),
];

/// Jobs of request 2.2: what each shows, the job and its sheet.
pub const NAMED_JOBS: [(&str, &str, &str); 8] = [
    (
        "name in a word with text: on the line",
        "57000303000054000500000061624600016e",
        "48000200014c000a5300030061624600016e",
    ),
    (
        "after the blank that closed the word: waits",
        "5700030300005400060000006162204600016e",
        "48000200014c00065300030061624600016e",
    ),
    (
        "Pre: the blank joined the word: on the line",
        "5700030300005400060100006162204600016e",
        "48000200014c000b530004006162204600016e",
    ),
    (
        "an LF or tab does not let a name go",
        "5700030300004600016e5400040100000a",
        "48000200014c00004600016e",
    ),
    (
        "names in the order of the fields, none twice",
        "5700030300004600016e540004010000094600016d",
        "48000200014c0007530004002020204600016e4600016d",
    ),
    (
        "hard wrap: lost",
        "57000301000054000500000061624600016e",
        "48000200024c000553000200614c00055300020062",
    ),
    (
        "PreWrap, word trimmed to nothing: lost",
        "57000301000054000602000020c2a04600016e",
        "4800020000",
    ),
    (
        "a word without columns stays open over a blank: on the line",
        "570003030000540006000000cc81204600016e",
        "48000200014c000a53000300cc814600016e",
    ),
];
