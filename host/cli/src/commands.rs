//! The commands and their words: what is parsed, and what help, the man page and the completions say.

use super::{export, import, jobs, step};

/// An option of a command.
pub struct Flag {
    /// As `--save`, or `-o`.
    pub name: &'static str,
    /// What its value is, in capitals; empty where it has none.
    pub value: &'static str,
    /// What it does.
    pub help: &'static str,
}

/// A command.
pub struct Command {
    /// Its word, or two words, of which the first is a group's.
    pub name: &'static str,
    /// What follows it beside the options.
    pub operand: &'static str,
    /// What it does, in a line.
    pub brief: &'static str,
    /// The rest of what there is to say.
    pub about: &'static str,
    /// Its options.
    pub flags: &'static [Flag],
}

/// Commands of two words, under the first of them.
pub struct Group {
    /// The first word.
    pub name: &'static str,
    /// What they are about, in a line.
    pub brief: &'static str,
    /// The rest of what there is to say of all of them.
    pub about: &'static str,
}

impl Group {
    /// Its commands.
    pub fn commands(&self) -> impl Iterator<Item = &'static Command> + use<> {
        let name = self.name;
        COMMANDS.iter().filter(move |command| command.group() == Some(name))
    }

    /// Their last words.
    pub fn last_words(&self) -> Vec<&'static str> {
        self.commands().map(Command::last_word).collect()
    }
}

impl Command {
    /// The first of two words.
    pub fn group(&self) -> Option<&'static str> {
        self.name.split_once(' ').map(|(group, _)| group)
    }

    /// The word, or the last of two.
    pub fn last_word(&self) -> &'static str {
        self.name.split_once(' ').map_or(self.name, |(_, word)| word)
    }
}

const OUT: Flag = Flag {
    name: "-o",
    value: "FILE",
    help: "writes to FILE, which appears whole or not at all (without it: standard output)",
};

const FROM: Flag = Flag {
    name: "--from",
    value: "PLACE",
    help: "shows what is there or after: item:N, offset:N (bytes), or a VIA tick as 12000t",
};
const TO: Flag = Flag {
    name: "--to",
    value: "PLACE",
    help: "shows what is there or before: item:N, offset:N (bytes), or a VIA tick as 12000t",
};
const ONLY: Flag =
    Flag { name: "--only", value: "PART", help: "shows what is about this: clock, via or disk" };
const JSON: Flag = Flag {
    name: "--json",
    value: "",
    help: "writes JSON, an object a line; docs/FORMATS.md has its names",
};
const CSV: Flag = Flag {
    name: "--csv",
    value: "",
    help: "writes comma-separated values; docs/FORMATS.md has their names",
};

const RUN: [Flag; 19] = [
    Flag { name: "--text", value: "", help: "LIST is in the text form" },
    Flag { name: "--records", value: "", help: "LIST is records even where it looks like a text" },
    Flag {
        name: "--cells",
        value: "CELLS",
        help: "the fresh machine's clock chip has so many cells: 20 (without it, too) or 256",
    },
    Flag {
        name: "--image",
        value: "FILE",
        help: "begins with the state of this image, not with the fresh machine",
    },
    Flag { name: "--save", value: "FILE", help: "writes the image of the state reached" },
    Flag {
        name: "--answers",
        value: "FILE",
        help: "writes the answers as bytes, 8 each, and no table",
    },
    Flag {
        name: "--vcd",
        value: "FILE",
        help: "writes wires, lines and drives over time as a Value Change Dump, and a .gtkw beside it, for GTKWave",
    },
    Flag {
        name: "--room",
        value: "BYTES",
        help: "gives the answers so many bytes in all (without it: all they need)",
    },
    Flag {
        name: "--plain",
        value: "",
        help: "tells the clock chip's command bytes by their bit patterns, not by the table: all comes out the same",
    },
    Flag { name: "--quiet", value: "", help: "no table, and no summary where nothing is refused" },
    Flag {
        name: "--strict",
        value: "",
        help: "exits with the number of the first refusal, where any item is refused",
    },
    jobs::JOBS,
    Flag {
        name: "--color",
        value: "WHEN",
        help: "always, never, or auto: on a terminal, unless NO_COLOR is set or TERM is dumb",
    },
    FROM,
    TO,
    ONLY,
    Flag { name: "--refused", value: "", help: "shows records that were refused, alone" },
    JSON,
    CSV,
];

const SHEET_TEXT: Flag =
    Flag { name: "--text", value: "", help: "the sheets named are in the text form" };

const CAPTURE_TEXT: Flag =
    Flag { name: "--text", value: "", help: "the captures are in the text form" };
const CAPTURE_RECORDS: Flag = Flag {
    name: "--records",
    value: "",
    help: "the captures are records even where they look like a text",
};
const CAPTURE_CELLS: Flag = Flag {
    name: "--cells",
    value: "CELLS",
    help: "the fresh machine's clock chip has so many cells: 20 (without it, too) or 256",
};
const CAPTURE_IMAGE: Flag = Flag {
    name: "--image",
    value: "FILE",
    help: "begins with the state of this image, not with the fresh machine",
};

/// All groups.
pub const GROUPS: [Group; 1] = [Group {
    name: "sheet",
    brief: "sheets of settings",
    about: "A bench has its settings from two sheets, its own and the house's. As text a sheet has a record a\n\
            line: setting (0 to 65535), version (0 to 255), bytes.\n\
            \n  \
            20 1 14               ; bytes as two hexadecimal digits each\n  \
            7  3 \"north bench\"    ; or as ASCII text between quotes\n  \
            9  0                  ; set, with no bytes",
}];

/// All commands.
pub const COMMANDS: [Command; 27] = [
    Command {
        name: "run",
        operand: "LIST..",
        brief: "runs a list: a table of answers, and a summary",
        about: "Runs a list of items (records, or text with --text) on a fresh machine, or on the state of\n\
                --image. A LIST of - is standard input. The table goes to standard output, the summary to\n\
                standard error: items carried out, refusals by their numbers, the duration in VIA ticks and\n\
                seconds, what changed in the clock chip. A list of any length runs in fixed memory. All\n\
                files asked for are written, or none; a closed pipe (as by head) ends the table alone.\n\
                What comes from a pipe is answered as it comes.\n\
                --from, --to, --only and --refused choose rows of the table; all of the list is run.\n\
                \n\
                Many lists, or --jobs, run each from the same state, several at a time: a row for each, in the\n\
                order in which they are named, and a summary; no files are written then.\n\
                \n\
                Exit status: 0 at the end of the list, 1 a record is cut, 6 no room for an answer, 7 the\n\
                image is none of an accepted state; with --strict the number of the first refusal. Of many\n\
                lists that of the first one whose status is not 0; all of them are run.",
        flags: &RUN,
    },
    Command {
        name: "decode",
        operand: "CAPTURE",
        brief: "the clock transactions of a capture, and what became of each",
        about: "Runs a capture and shows each transaction with the clock chip, from a fall of enable to its next\n\
                rise: VIA tick, seconds since the start and byte offset of its first item, what was asked, the\n\
                byte, and its fate: written, kept out by protect, half sent (how many bits), illegal, or read.\n\
                The byte of a read is what the program saw in port B; what the chip sent is told where that\n\
                differs. Once all four seconds bytes are read, the date is shown. --from and --to choose\n\
                transactions that are at least in part within the range, --refused those in which a record was\n\
                refused.\n\
                \n\
                Exit status: 1 where a record is cut; what comes before it is shown.",
        flags: &[
            OUT,
            JSON,
            CSV,
            FROM,
            TO,
            ONLY,
            Flag {
                name: "--refused",
                value: "",
                help: "shows transactions in which a record was refused, alone",
            },
            CAPTURE_TEXT,
            CAPTURE_RECORDS,
            CAPTURE_CELLS,
            CAPTURE_IMAGE,
        ],
    },
    Command {
        name: "summary",
        operand: "CAPTURE",
        brief: "what a run of a capture comes to",
        about: "Runs a capture and shows the summary that run shows, on standard output, and how many clock\n\
                transactions were written, kept out by protect, half sent, illegal and read.\n\
                \n\
                Exit status: 1 where a record is cut; what comes before it is counted.",
        flags: &[OUT, JSON, CSV, CAPTURE_TEXT, CAPTURE_RECORDS, CAPTURE_CELLS, CAPTURE_IMAGE],
    },
    Command {
        name: "report",
        operand: "CAPTURE",
        brief: "a page with the waveform, the clock transactions and the refusals",
        about: "Runs a capture and writes one page that opens in a browser from a disk: the waveform of the\n\
                clock's wires and the disk lines, with zoom; the clock transactions; the refusals, what they\n\
                mean and what to do; the state at the end. It can be printed in black and white. Of a long\n\
                capture the page has the first 20,000 changes of the lines and 2,000 transactions, and says\n\
                so; --from and --to choose a part.\n\
                \n\
                Exit status: 1 where a record is cut; the page has what comes before it.",
        flags: &[OUT, FROM, TO, CAPTURE_TEXT, CAPTURE_RECORDS, CAPTURE_CELLS, CAPTURE_IMAGE],
    },
    Command {
        name: "diff",
        operand: "A B",
        brief: "where two captures, or two images, differ",
        about: "Runs two captures from one state, and shows the first record in which they differ, the first\n\
                answer, the first item after which their states differ, and the states reached, field by field.\n\
                Of two images it shows the fields that differ.\n\
                \n\
                Exit status: 0 where all answers and the states reached are the same, or both images; else 1.",
        flags: &[CAPTURE_TEXT, CAPTURE_RECORDS, CAPTURE_CELLS, CAPTURE_IMAGE],
    },
    Command {
        name: "asm",
        operand: "[TEXT]",
        brief: "text to records",
        about: "Turns a list in the text form into records. Without TEXT it reads standard input. Every\n\
                wrong line is named, as FILE:LINE:COLUMN: MESSAGE, and then nothing is written.",
        flags: &[OUT],
    },
    Command {
        name: "disasm",
        operand: "[LIST]",
        brief: "records to text",
        about: "Turns records into the text form. Without LIST it reads standard input. What a run would\n\
                refuse becomes lines of RAW bytes, so that asm gives the same bytes back for every list.",
        flags: &[OUT, Flag {
            name: "--records",
            value: "",
            help: "LIST is records even where it looks like a text",
        }],
    },
    Command {
        name: "convert",
        operand: "[OLD]",
        brief: "a capture from before SN retired, turned over",
        about: "Turns a capture (records) over that was made before SN retired on the registers that a drive\n\
                has itself, 0 to 5, 12 and 15: such an SN becomes an IN of the same wait, and a DI after it\n\
                where a disk came or went. Without OLD it reads standard input. It takes at most 268,435,456\n\
                bytes, which begin on a fresh machine.\n\
                \n\
                Exit status: 1 where a record is cut; what comes before it is converted and written.",
        flags: &[OUT, Flag {
            name: "--records",
            value: "",
            help: "OLD is records even where it looks like a text",
        }],
    },
    Command {
        name: "cut",
        operand: "CAPTURE",
        brief: "a capture in parts, each with the state that it starts from",
        about: "Cuts a capture between records, at a byte offset of the records or after every so many\n\
                records. Part 1 is PREFIX-0001.bin (records), and PREFIX-0001.st is the image of the state\n\
                that it starts from, so that run PREFIX-0002.bin --image PREFIX-0002.st goes on where part 1\n\
                ended. It makes at most 400 parts of at most 268,435,456 bytes in all; all files are\n\
                written, or none. An offset that is not between two records is refused.\n\
                \n\
                Of a capture that was not copied whole, --good keeps the whole records before the one that is\n\
                cut, and says how many bytes it leaves out: alone in one part, or with --at or --every.\n\
                \n\
                Exit status: 1 where a record of the capture is cut (without --good); then nothing is written.",
        flags: &[
            Flag { name: "--at", value: "OFFSET", help: "cuts in two, so many bytes from the start" },
            Flag { name: "--every", value: "COUNT", help: "cuts after every so many records" },
            Flag {
                name: "--good",
                value: "",
                help: "keeps the whole records before one that is cut, and leaves out the rest",
            },
            Flag { name: "--out", value: "PREFIX", help: "what the names of all files begin with" },
            CAPTURE_TEXT,
            CAPTURE_RECORDS,
            CAPTURE_CELLS,
            CAPTURE_IMAGE,
        ],
    },
    Command {
        name: "join",
        operand: "CAPTURE..",
        brief: "captures one after the other, as one",
        about: "Writes the records of all captures named, in the order in which they are named. Where each\n\
                starts from the state that the one before it left, as the parts that cut makes do, a run of\n\
                the whole gives what the runs of the parts gave. The whole has at most 268,435,456 bytes.\n\
                \n\
                Exit status: 1 where a record of a capture is cut; then nothing is written.",
        flags: &[OUT, CAPTURE_TEXT, CAPTURE_RECORDS],
    },
    Command {
        name: "touches",
        operand: "CAPTURE..",
        brief: "what of a capture can touch the clock; whether two agree",
        about: "Shows the items of a capture that can touch the clock chip: those carried out that write VIA\n\
                registers 0 (ORB) and 2 (DDRB), an MW as its single writes, resets, every SE (one second), power\n\
                cuts, each with its byte offset and the VIA ticks waited until it acts. Of two captures it says\n\
                whether they agree in these items, and where they first part; two that agree leave the same cells,\n\
                seconds, protect, test and half-made command, whatever their waits and other items are. Both\n\
                begin on one state.\n\
                \n\
                Exit status: of one capture 1 where a record is cut; what comes before it is shown. Of two 0\n\
                where they agree, 1 where they do not.",
        flags: &[CAPTURE_TEXT, CAPTURE_RECORDS, CAPTURE_CELLS, CAPTURE_IMAGE],
    },
    step::COMMAND,
    import::COMMAND,
    export::COMMAND,
    Command {
        name: "image",
        operand: "FILE",
        brief: "a state image in words",
        about: "Shows the state in an image that run --save wrote, all cells of its clock chip too. An image of no accepted state is refused\n\
                with the first field that is out of its range: its name, offset and value.",
        flags: &[JSON, CSV],
    },
    Command {
        name: "clock",
        operand: "IMAGE ASK..",
        brief: "reads or writes the clock of a state image",
        about: "Asks the clock chip of an image, by the transactions that a bench would run:\n\
                \n  \
                read CELL             shows a cell, 0 to 19 or 0 to 255\n  \
                write CELL BYTE       writes one\n  \
                seconds               shows the seconds, counted from 1 January 1904\n  \
                set-seconds SECONDS   writes them\n  \
                protect on, or off    sets or clears write-protect\n\
                \n\
                Numbers are decimal, or hexadecimal as $AA or 0xAA. What is written takes the place of IMAGE,\n\
                whole or not at all; read and seconds leave it as it is. Beside what is asked for, a write changes\n\
                nothing of the state but bits 0 to 2 of port B's outputs and directions.\n\
                \n\
                Exit status: 2 write-protect is set, 5 the chip has no such cell, 7 the image is none of an\n\
                accepted state, 10 the clock's enable line is down; then nothing is written.",
        flags: &[Flag { name: "--save", value: "FILE", help: "writes the image to FILE and leaves IMAGE as it is" }],
    },
    Command {
        name: "keyboard",
        operand: "[EVENTS]",
        brief: "a keyboard's answers to commands, keys and waits",
        about: "Runs a text of events on a keyboard and shows its answers. Without EVENTS it reads standard\n\
                input. A line has a wait in VIA ticks, which ends in t, and what happens after it:\n\
                \n  \
                0t      COMMAND $10   ; a command byte, or INQUIRY, INSTANT, MODEL, TEST\n  \
                100t    KEY $33       ; a key code\n  \
                195840t               ; a wait alone\n\
                \n\
                Every wrong line is named, as FILE:LINE:COLUMN: MESSAGE, and then nothing is run. Exit\n\
                status: 7 where the image is none of an accepted keyboard.",
        flags: &[
            Flag {
                name: "--model",
                value: "BYTE",
                help: "what the command Model answers (without it: $03)",
            },
            Flag {
                name: "--image",
                value: "FILE",
                help: "begins with the keyboard of this image, not with one just made",
            },
            Flag { name: "--save", value: "FILE", help: "writes the image of the keyboard reached" },
        ],
    },
    Command {
        name: "sheet get",
        operand: "SETTING",
        brief: "a setting's bytes, and their sheet",
        about: "Looks a setting (0 to 65535) up in the bench sheet, then in the house sheet, and shows its\n\
                number, the sheet that it is from, and its bytes; or that it is not set.\n\
                \n\
                Exit status: 0 where it is set, 1 a sheet is broken, 2 it is not set.",
        flags: &[
            Flag { name: "--bench", value: "FILE", help: "the bench sheet (without it: an empty one)" },
            Flag { name: "--house", value: "FILE", help: "the house sheet (without it: an empty one)" },
            SHEET_TEXT,
        ],
    },
    Command {
        name: "sheet list",
        operand: "[SHEET]",
        brief: "a sheet to text",
        about: "Shows all records of a sheet as text, in their order; those that do not count say so in a\n\
                comment, so that sheet make gives the same bytes back. Without SHEET it reads standard\n\
                input. Exit status: 1 where the sheet is broken.",
        flags: &[OUT, SHEET_TEXT],
    },
    Command {
        name: "sheet make",
        operand: "[TEXT]",
        brief: "text to a sheet",
        about: "Turns a text, one record a line, into a sheet (sheet --help shows the form). Without TEXT it reads\n\
                standard input. Every wrong line is named, as FILE:LINE:COLUMN: MESSAGE, and then nothing is\n\
                written.",
        flags: &[OUT],
    },
    Command {
        name: "sheet compact",
        operand: "[SHEET]",
        brief: "a sheet's counting records alone",
        about: "Writes the records of a sheet that count, one for each setting, in their order: every answer\n\
                stays the same. Without SHEET it reads standard input.\n\
                \n\
                Exit status: 1 the sheet is broken, 6 --room is too little; then nothing is written.",
        flags: &[
            OUT,
            SHEET_TEXT,
            Flag {
                name: "--room",
                value: "BYTES",
                help: "gives the records so many bytes (without it: all they need)",
            },
        ],
    },
    Command {
        name: "sample",
        operand: "",
        brief: "the small list that swarmtempo alone runs, as text",
        about: "Writes a small list in the text form, with comments, to be changed and run.",
        flags: &[OUT],
    },
    Command {
        name: "bench",
        operand: "",
        brief: "records a second, beside a plain model of the board",
        about: "Times lists on the library and on a plain model of the same board: each kind of item, refusals,\n\
                transactions with the clock chip, the same writes as WR and as MW of 64 values, long waits, a mix,\n\
                and calls with one item; and on the library with 256 cells. The last lines are for scripts: the\n\
                ratio of an MW's values to the same WR, and the ratios of the mix, of the worst list, and of calls\n\
                with one item.",
        flags: &[
            Flag {
                name: "--records",
                value: "COUNT",
                help: "records in each list (without it: 200000; at most 10000 with --instructions)",
            },
            Flag {
                name: "--instructions",
                value: "",
                help: "counts instructions a record, by valgrind, which takes longer, in place of times",
            },
        ],
    },
    Command {
        name: "man",
        operand: "",
        brief: "the man page",
        about: "Writes the man page: swarmtempo man > swarmtempo.1 && man ./swarmtempo.1",
        flags: &[OUT],
    },
    Command {
        name: "completions",
        operand: "SHELL",
        brief: "completions for a shell: bash, zsh or fish",
        about: "Writes completions. For bash, in ~/.bashrc: source <(swarmtempo completions bash). For zsh, to\n\
                a file named _swarmtempo in a folder of $fpath. For fish, to\n\
                ~/.config/fish/completions/swarmtempo.fish",
        flags: &[OUT],
    },
    Command {
        name: "help",
        operand: "[COMMAND]",
        brief: "this help, or a command's own",
        about: "Shows all commands, or one command with its options, as COMMAND --help does.",
        flags: &[],
    },
    Command {
        name: "version",
        operand: "",
        brief: "the version",
        about: "Shows the version, as -V and --version do.",
        flags: &[],
    },
];

/// The text form, the units and the statuses, for help and the man page.
pub const TEXT_FORM: &str = "\
12t WR VIA.ORB $41     0t RD $EFE1FE     12000us VB    0t SE     0t RS
0t IN 3 1              0t SN internal 6 0              0t DI internal 1 0 1
0t MW VIA.ORB 0 2 4    0t KC 1           0t PW 5s      RAW 05 00     ; comment
";

/// Units, in a sentence.
pub const UNITS: &str = "\
Time is in VIA ticks, 783,360 a second. In text a wait ends in t (VIA ticks) or us (microseconds,
turned into VIA ticks and rounded up), a time off in s (seconds).";

/// Statuses, in a sentence.
pub const STATUSES: &str = "\
Exit status of run: 0 at the end of the list, 1 a record is cut, 6 no room for an answer, 7 the image
is none of an accepted state; with --strict the number of the first refusal; of many lists that of
the first one whose status is not 0. Of export and step: 1 a record is cut. Of convert: 1 a
record is cut. Of cut and join: 1 a record is cut. Of touches: 1 two captures do not agree, or a
record is cut. Of decode, report and summary: 1 a record is cut. Of diff: 1 there is a difference. Of clock: 2 write-protect is set, 5 no such
cell, 10 enable is down. Of sheet: 1 a sheet is broken, 2 a setting is not set, 6 too little room. Of all commands: 64 wrong words, 65 an error in a
text or a file of another kind, 74 a file cannot be read or written.";

/// The group of a word.
pub fn group(name: &str) -> Option<&'static Group> {
    GROUPS.iter().find(|group| group.name == name)
}

/// The command of its name.
pub fn find(name: &str) -> Option<&'static Command> {
    COMMANDS.iter().find(|command| command.name == name)
}
