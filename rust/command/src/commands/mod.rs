//! The commands, each with its words for the help.

mod add;
mod card;
mod chain;
mod check;
mod completion;
mod diff;
mod drag;
mod draw;
mod edit;
mod longest;
mod measure;
mod part;
mod place;
mod plan;
mod report;
mod scene;
mod shared;
mod show;

use crate::cli::{Command, Flag, JSON, LIST, OUTPUT};

const PRICES: Flag = Flag {
    name: "prices",
    short: None,
    value: Some("FILE"),
    says: "what measuring costs: lines \"A B 5\", \"A C never\", \"default 10\"",
};
const QUIET: Flag = Flag { name: "quiet", short: Some('q'), value: None, says: "print the table at the end alone" };
const CSV: Flag = Flag { name: "csv", short: None, value: None, says: "print a table, commas between" };
const SHORT: Flag = Flag { name: "short", short: Some('s'), value: None, says: "print a line a file" };
const VERDICT: Flag =
    Flag { name: "verdict", short: None, value: None, says: "the verdict alone, at once: no advice, no look at sizes" };
const FAILED: Flag =
    Flag { name: "failed", short: None, value: None, says: "leave out files that are well and have no warning" };
const STRICT: Flag = Flag { name: "strict", short: None, value: None, says: "end with status 1 for every warning too" };
const WORDS: Flag = Flag { name: "words", short: None, value: None, says: "print the steps in words, by names" };
const HTML: Flag =
    Flag { name: "html", short: None, value: None, says: "a page: report, parts and steps, lit by the mouse" };
const STEP: Flag =
    Flag { name: "step", short: None, value: Some("K"), says: "the picture of step K of the plan, from 1" };
const STEPS: Flag =
    Flag { name: "steps", short: None, value: Some("DIR"), says: "a picture of each step, into the folder DIR" };
const SIZE: Flag =
    Flag { name: "size", short: None, value: Some("WxH"), says: "the most that the picture takes, in pixels" };
const LABELS: Flag = Flag { name: "labels", short: None, value: Some("WHICH"), says: "all, names, sizes or none" };
const SHEET: Flag =
    Flag { name: "sheet", short: None, value: None, says: "print the set as a sheet in text, with rough places" };
const WINDOW: Flag = Flag {
    name: "window",
    short: None,
    value: Some("X,Y,S"),
    says: "what is seen: the upper left corner in mm, and pixels a mm",
};
const DXF: Flag = Flag { name: "dxf", short: None, value: None, says: "print a drawing for CAD programs (release 12)" };

/// The most operands of a command that takes any number.
const ANY: usize = usize::MAX;

/// Every command, in the order of the help.
pub const COMMANDS: [Command; 20] = [
    Command {
        name: "check",
        operands: "FILE..",
        count: (1, ANY),
        flags: &[&JSON, &CSV, &SHORT, &VERDICT, &FAILED, &LIST, &PRICES, &STRICT, &QUIET],
        summary: "say whether sheets are fully dimensioned, and what is wrong",
        about: "
Each file gets its verdict (well, under, stuck, angle, over) with what to change, which was
tried before, and a warning where sizes do not close. Several files are checked on all cores,
and a table stands at the end: how many got which verdict, and how many were refused by which
rule, with an example each. The status is that of the worst file. A folder stands for the
sheets in it and below, whose names end in .txt or .sheet.
Warnings marked numeric come from one layout in floating point and are not proved.",
        run: check::run,
    },
    Command {
        name: "show",
        operands: "FILE",
        count: (1, 1),
        flags: &[&OUTPUT, &JSON],
        summary: "print a sheet as text",
        about: "
The text has a statement a line: point, line and circle name the elements in their order,
distance, angle, on and tangent are the constraints. Elements of a sheet in bytes are named
P, L or C with their number.",
        run: show::show,
    },
    Command {
        name: "make",
        operands: "FILE",
        count: (1, 1),
        flags: &[&OUTPUT, &JSON],
        summary: "make a sheet in bytes from its text",
        about: "
Names and comments are left behind: the bytes hold the facts alone. Statements:
  point A B                    line bottom             circle lamp 45.0 mm
  distance A B 600.0 mm        distance A bottom 30    angle bottom left 90 deg
  on A bottom                  tangent lamp bottom     tangent lamp ring other
  point A at 0 0               line bottom from 0 0 to 600 0    (rough places, in mm)
Lengths are in mm, cm or m, angles in degrees; # begins a comment. \"opening PF02\" makes a
sheet for circles where none stands. An angle turns from the first named line to the second.",
        run: show::make,
    },
    Command {
        name: "report",
        operands: "FILE",
        count: (1, 1),
        flags: &[&JSON],
        summary: "print the report: verdict, steps of the plan, parts that are left",
        about: "
The lines are the proved report's own, by numbers; --json gives the same by names.",
        run: report::report,
    },
    Command {
        name: "plan",
        operands: "FILE",
        count: (1, 1),
        flags: &[&OUTPUT, &JSON, &WORDS],
        summary: "print the plan, or save it with -o",
        about: "
Three cluster numbers a step, a step a line; with --words each step in words, by the names of
the elements. With -o the plan is saved as the older programs save it: 16-bit numbers, lowest
byte first; words and JSON are saved as they are. A sheet that is over has no plan.",
        run: plan::plan,
    },
    Command {
        name: "verify",
        operands: "SHEET PLAN",
        count: (2, 2),
        flags: &[&JSON, &WORDS],
        summary: "check a saved plan, and print the report for it",
        about: "
PLAN is a saved plan: 16-bit numbers, or the text that plan prints. It may take the merges in
another order. A plan that is refused gives the rule, and the step at fault; with --words the
steps before it are told.",
        run: plan::verify,
    },
    Command {
        name: "add",
        operands: "FILE STATEMENT..",
        count: (2, ANY),
        flags: &[&OUTPUT, &JSON, &STRICT],
        summary: "ask what more dimensions would do; -o saves them",
        about: "
Each statement is a constraint in the words of the text form, in quotation marks:
  pattern add house.txt \"distance A B 600\" \"on C bottom\"
They are placed one after another; the verdict after all of them is printed, with the parts
that they join. One that a part cannot take is refused, and the part is named. FILE itself is
never changed: -o writes the new sheet, as text where FILE is text, else in bytes.",
        run: add::run,
    },
    Command {
        name: "edit",
        operands: "FILE CHANGE..",
        count: (1, ANY),
        flags: &[&OUTPUT, &JSON],
        summary: "change a text in place: draw, remove, rename, move, resize",
        about: "
Each change is in quotation marks, and they are made one after another:
  a statement of the text form       an element behind the others, a constraint at the end
  \"remove A\"     \"remove A B\"       an element with all that holds it; what holds A and B
  \"rename A corner\"                 wherever it stands
  \"move A at 0 0\"                   its rough place; \"move sill from 0 0 to 600 0\"
  \"resize A B 600\"  \"radius c 45\"  another size
Comments and spaces stay. The new text is printed, whatever its verdict; FILE is not changed.",
        run: edit::run,
    },
    Command {
        name: "part",
        operands: "FILE CLUSTER",
        count: (2, 2),
        flags: &[&JSON, &WORDS],
        summary: "print the steps of one cluster of the plan",
        about: "
CLUSTER is the number of any cluster of the plan. Each part's steps come before the step that
uses them; a constraint is a cluster too and has none. With --words they are told by names, with
their places in the plan.",
        run: part::run,
    },
    Command {
        name: "shared",
        operands: "FILE CLUSTER CLUSTER",
        count: (3, 3),
        flags: &[&JSON],
        summary: "print the elements that two parts share",
        about: "
The two are numbers of any clusters of the plan. Where they share nothing it prints none and ends
with status 1.",
        run: shared::run,
    },
    Command {
        name: "chain",
        operands: "FILE FROM TO",
        count: (3, 3),
        flags: &[&JSON],
        summary: "print the fewest parts from one element to another",
        about: "
FROM and TO are names or numbers of elements. Each part shares an element with the next. Where
the two are not connected it prints none and ends with status 1.",
        run: chain::run,
    },
    Command {
        name: "diff",
        operands: "OLD NEW",
        count: (2, 2),
        flags: &[&JSON],
        summary: "compare two sheets: constraints added and gone, parts grown",
        about: "
Elements are compared by name where both files are text, else by number. Ends with status 1
where the sheets differ.",
        run: diff::run,
    },
    Command {
        name: "draw",
        operands: "FILE..",
        count: (1, ANY),
        flags: &[&OUTPUT, &HTML, &STEP, &STEPS, &SIZE, &LABELS, &LIST, &JSON],
        summary: "draw a sheet as SVG, or as a page with --html",
        about: "
The elements are laid out near the rough places of the text (point A at 0 0, line sill from
0 0 to 600 0), where it has some; else from the dimensions by the steps of the plan, of two
placements the clearer one; else by a numeric search. Where none meets every size, the
picture is what came nearest, and the sizes that it does not meet are marked. The layout is
tested, not proved. Parts have colours of their own, what is over is red, parts that can
still move are dashed. Lines have an arrow: distances to its left are positive, and angles
turn against the clock from the first line to the second. Several files, or those of a folder,
are drawn into the folder that -o names, on all cores.",
        run: draw::run,
    },
    Command {
        name: "place",
        operands: "FILE",
        count: (1, 1),
        flags: &[&OUTPUT, &JSON, &CSV, &DXF],
        summary: "print where a layout has the elements: text, JSON, CSV or DXF",
        about: "
The text is the sheet with the places that were found behind its elements, in millimetres:
  point A at 0 0      line sill from 0 0 to 600 0      circle lamp 45.0 mm at 300 200
A layout begins at such places and stays near them: change one by hand, and draw again.
They are in no byte of a sheet and no verdict looks at them. Where the text has none, the
first line lies level and the first point is at 0 0. Lines reach between the outermost
points on them. Ends with status 1 where no layout meets every size.",
        run: place::run,
    },
    Command {
        name: "scene",
        operands: "FILE",
        count: (1, 1),
        flags: &[&OUTPUT, &SIZE, &LABELS, &WINDOW, &JSON],
        summary: "print what draw draws as data, for a program that draws it: JSON",
        about: "
Elements with their places and constraints with their shapes, in millimetres, x to the right
and y up; colours, and where labels stand so that they do not cover each other, at the scale
of --window, in a canvas of --size. A text of no element or of one is drawn too.",
        run: scene::run,
    },
    Command {
        name: "drag",
        operands: "FILE PULL",
        count: (2, 2),
        flags: &[&OUTPUT, &SIZE, &LABELS, &WINDOW, &JSON],
        summary: "print where everything is when some elements are pulled",
        about: "
PULL is the names of the elements, and by how much they are pulled, in millimetres:
  pattern drag frame.txt \"C D from 0 0 to 120 40\"
The dimensions are held: what is under racks, a rigid part moves as one, and what nothing holds
to the elements stays. The text is printed with the new rough places, all else in it as it is;
--json adds what scene gives. The layout is tested, not proved. Ends with status 1 where it
does not meet every size.",
        run: drag::run,
    },
    Command {
        name: "measure",
        operands: "FILE A B",
        count: (3, 3),
        flags: &[&JSON],
        summary: "print what may hold two elements, sizes taken from the drawing",
        about: "
A statement a line, for pattern add: the distance or the angle that the layout has between
the two, and the contacts that they may have. What the drawing shows already comes first.",
        run: measure::run,
    },
    Command {
        name: "longest",
        operands: "N",
        count: (1, 1),
        flags: &[&OUTPUT, &JSON],
        summary: "print the sheet of N points with the longest plan; -o saves it",
        about: "
To try a machine with: N is 2 to 64, the plan has N-2 steps, and no sheet of so many elements
that is not over has a longer one. It is printed as text; with -o it is saved in bytes.",
        run: longest::run,
    },
    Command {
        name: "card",
        operands: "[ENTRY | PAIR..]",
        count: (0, 10),
        flags: &[&SHEET, &JSON],
        summary: "print how many sets of distances among five points are over, well, ..",
        about: "
A line each for two to five points. ENTRY is a number of the card, 0 to 1023: pair 0-1 is its
lowest bit, then in dictionary order. Or name the PAIRs, like 0-1 0-2 1-2: the verdict of five
points with these distances is printed. --json gives the whole card, with places to draw it at.",
        run: card::run,
    },
    Command {
        name: "completion",
        operands: "SHELL",
        count: (1, 1),
        flags: &[&JSON],
        summary: "print a completion script for bash, zsh or fish",
        about: "
  pattern completion bash > /etc/bash_completion.d/pattern",
        run: completion::run,
    },
];
