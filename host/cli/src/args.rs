//! The command line, and with its help the manual's beginning.

use clap::{Args, Parser, Subcommand};
use std::path::PathBuf;

const ABOUT: &str = "Checks sequence rules against a model of jobs";

const LONG_ABOUT: &str = "\
Checks sequence rules against a model of jobs.

A model has states; in each some propositions hold, and each goes to others. A rule is a forbidden order
of events. `check` tells for each rule whether some run of the model matches it, and shows a shortest one,
or says that no run of any length does. Only runs that can be continued for ever count. What is decided
is decided by a library of which every function is proved; this program adds names, files and pictures.";

const AFTER: &str = "\
A model as text:
    propositions expire thin write        # names for p0, p1, p2; optional
    state idle initial: expire -> idle busy
    state busy: thin -> busy done
    state done: write -> idle
A state has a name or its number, perhaps `initial`, what holds in it, and where it goes. At most 64 states and 6
propositions. A file that ends in .gcm, or any with --bytes, is read as a model's bytes.

Or two formulas in the place of the states; each letter is then a state, and is shown as what holds in it:
    propositions written verified
    initial: (!written & !verified)
    step: ((!written | next(written)) & (written | !next(verified)))
A formula is as in rules, and may have blanks; next(p0) is p0 in the next state, and stands in `step:` alone.

Rules, with no blanks inside:
    f                  one event in which the formula f holds: p0, a name, true, false, !f, (f&g), (f|g)
    [*0]               no event
    {a;b}              a, then b
    {a:b}              a, then b, with one event that both share
    {a|b}              a or b
    {a&&b}  {a&b}      both over the same events; one of them, and the other over a beginning
    {a}[*]  {a}[+]     a any number of times; once or more
    {a}[*i..j]         a from i to j times
    f[=i..j]           from i to j events in which f holds, others anywhere
A rule matches from a run's first state on; --anywhere lets anything come before it.

An event is propositions with commas between, or {a b}; - or {} where nothing holds; or a letter's number.

Exit status, as with grep and diff turned round, since what is looked for is forbidden:
    0    nothing was found: no run, no match
    1    something was found
    2    a refusal or any trouble; there is no verdict on what was refused, and other rules are still told
A command that decides nothing (model, table, text, bytes, draw) ends with 0 or 2.

    gongcollar check jobs.txt --rules rules.txt
    gongcollar check jobs.txt 'late: {write;{{!expire}[*];thin}}' --anywhere
    gongcollar draw jobs.txt --rule '{expire;thin}' | dot -Tsvg > jobs.svg";

/// Checks sequence rules against a model of jobs.
#[derive(Debug, Parser)]
#[command(name = "gongcollar", version, about = ABOUT, long_about = LONG_ABOUT, after_long_help = AFTER)]
pub struct Cli {
    /// What is to be done.
    #[command(subcommand)]
    pub command: Command,
}

/// The commands.
#[derive(Debug, Subcommand)]
pub enum Command {
    /// Tell for each rule whether some run of the model matches it
    Check(Check),
    /// Print a model back from its bytes: as text, in hexadecimal, or as a picture's source
    Model(ShowModel),
    /// Print a rule's automaton: weight, finals, labels as formulas
    Table(ShowTable),
    /// Tell whether a rule accepts a row of at most 16 events, without any table
    Judge(Judge),
    /// Follow events as they come, a line each, and tell the first match
    Follow(Follow),
    /// Print the text of a rule's bytes
    Text(Text),
    /// Print the bytes of a rule
    Bytes(Bytes),
    /// Print a picture's source: the model, with the run that matches the rule in colour
    Draw(Draw),
}

/// A model's file.
#[derive(Debug, Args)]
pub struct ModelFile {
    /// The model's file, or - for standard input
    #[arg(value_name = "MODEL")]
    pub path: PathBuf,
    /// Read the model as bytes; so are files that end in .gcm
    #[arg(long)]
    pub bytes: bool,
}

/// Where a rule may match.
#[derive(Debug, Args)]
pub struct Where {
    /// Let anything come before the rule: {{true}[*];RULE}
    #[arg(long)]
    pub anywhere: bool,
}

/// Whether there are warnings.
#[derive(Debug, Args)]
pub struct Warnings {
    /// Say nothing of what is probably not meant
    #[arg(long)]
    pub no_warnings: bool,
}

impl Warnings {
    /// Whether there are.
    pub fn told(&self) -> bool {
        !self.no_warnings
    }
}

/// Names without a model that is searched.
#[derive(Debug, Args)]
pub struct NamesFrom {
    /// Take the propositions' names from this model
    #[arg(long, value_name = "MODEL")]
    pub names: Option<PathBuf>,
}

/// `check`.
#[derive(Debug, Args)]
#[command(
    after_help = "Status 0 if nothing was found, 1 if something was, 2 for a refusal or any trouble."
)]
pub struct Check {
    /// The model.
    #[command(flatten)]
    pub model: ModelFile,
    /// Rules, each as `RULE` or `name: RULE`
    #[arg(value_name = "RULE", required_unless_present = "file")]
    pub rules: Vec<String>,
    /// Take rules from a file too, a line each; # begins a comment; - is standard input
    #[arg(long = "rules", value_name = "FILE", id = "file")]
    pub file: Option<PathBuf>,
    /// Where they may match.
    #[command(flatten)]
    pub place: Where,
    /// Print a JSON object for each rule
    #[arg(long)]
    pub json: bool,
    /// Whether there are warnings.
    #[command(flatten)]
    pub warnings: Warnings,
}

/// `model`.
#[derive(Debug, Args)]
pub struct ShowModel {
    /// The model.
    #[command(flatten)]
    pub model: ModelFile,
    /// Print the bytes in hexadecimal, a line for each state
    #[arg(long, group = "form")]
    pub hex: bool,
    /// Write the bytes as they are, for a .gcm file or rulecheck
    #[arg(long, group = "form")]
    pub raw: bool,
    /// Print a picture's source, for graphviz
    #[arg(long, group = "form")]
    pub dot: bool,
}

/// `table`.
#[derive(Debug, Args)]
pub struct ShowTable {
    /// The rule
    #[arg(value_name = "RULE")]
    pub rule: String,
    /// Leave out the states that do no work
    #[arg(long)]
    pub trim: bool,
    /// Print a picture's source, for graphviz
    #[arg(long)]
    pub dot: bool,
    /// Where it may match.
    #[command(flatten)]
    pub place: Where,
    /// Names.
    #[command(flatten)]
    pub names: NamesFrom,
}

/// `judge`.
#[derive(Debug, Args)]
#[command(
    after_help = "Status 0 if the events do not match, 1 if they do, 2 for a refusal or any trouble."
)]
pub struct Judge {
    /// The rule
    #[arg(value_name = "RULE")]
    pub rule: String,
    /// The events, as `expire,thin - write`; none at all is the empty sequence
    #[arg(value_name = "EVENTS")]
    pub events: Vec<String>,
    /// Where it may match.
    #[command(flatten)]
    pub place: Where,
    /// Names.
    #[command(flatten)]
    pub names: NamesFrom,
}

/// `follow`.
#[derive(Debug, Args)]
#[command(
    after_help = "Status 0 if there was no match, 1 if there was one, 2 for a refusal or any trouble."
)]
pub struct Follow {
    /// The rule
    #[arg(value_name = "RULE")]
    pub rule: String,
    /// The events' file, or - for standard input; blank lines and comments are passed over
    #[arg(value_name = "FILE", default_value = "-")]
    pub file: PathBuf,
    /// Where it may match.
    #[command(flatten)]
    pub place: Where,
    /// Names.
    #[command(flatten)]
    pub names: NamesFrom,
}

/// `text`.
#[derive(Debug, Args)]
pub struct Text {
    /// The rule's bytes in hexadecimal
    #[arg(value_name = "BYTES", required = true)]
    pub bytes: Vec<String>,
    /// Names.
    #[command(flatten)]
    pub names: NamesFrom,
}

/// `bytes`.
#[derive(Debug, Args)]
pub struct Bytes {
    /// The rule
    #[arg(value_name = "RULE")]
    pub rule: String,
    /// Where it may match.
    #[command(flatten)]
    pub place: Where,
    /// Names.
    #[command(flatten)]
    pub names: NamesFrom,
}

/// `draw`.
#[derive(Debug, Args)]
pub struct Draw {
    /// The model.
    #[command(flatten)]
    pub model: ModelFile,
    /// The rule
    #[arg(long, value_name = "RULE")]
    pub rule: String,
    /// Where it may match.
    #[command(flatten)]
    pub place: Where,
    /// Whether there are warnings.
    #[command(flatten)]
    pub warnings: Warnings,
}
