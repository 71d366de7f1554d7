//! The texts that are the same in every run.

/// What is written if the arguments are no subcommand.
pub const USAGE: &str =
    "usage: nooks run | run threads | asm | dis | gen N | audit | campaign | mirror\n";

/// A line for each status.
pub const STATUSES: &str = "\
status 0              done; no part was given up
status 1              a part was given up; for mirror: neither disk was left
status 2              the words are of no form; nothing was read
status 3              the input was refused; the line written says why and where
status 4              reading failed; nothing was written
status 5              writing failed; a front of the output was written
status 6              memory was wanting; a front of the output was written, or nothing
status 7              a driver broke its class's contract
status 8              a line of the report does not fit the scenario
status 9              not every order was followed: too many states
";

/// The version of the proved program that this one agrees with.
pub const VERSION: &str = "nooks 0.11.0 plain, nothing proved\n";

pub const AUDIT_YES: &str = "audit yes\n";

/// Standard error, after the usage line.
pub const FORMS: &str = "nooks: `nooks --help` lists every form of words\n";

/// Standard error, after the usage line if an argument is the path of a file.
pub const STANDARD_INPUT: &str = "nooks: input comes from standard input: nooks run < FILE\n";

/// Standard error, after the line of a refused input.
pub const EXPLAIN: &str =
    "nooks: `nooks-bench explain --input FILE`, given this line, shows the place in the input\n";

pub const READ_FAILED: &str = "nooks: reading standard input failed; nothing was written\n";
pub const WRITE_FAILED: &str =
    "nooks: writing standard output failed; a front of the output was written\n";
pub const NO_MEMORY: &str =
    "nooks: memory was wanting; a front of the output was written, or nothing\n";
