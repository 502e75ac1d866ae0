//! Lines of shell in the place of the proved programs, and some that start the tool.

use super::lists::ACCEPTED_SHEET;

/// Writes these bytes, none of which is a percent sign.
pub fn writes(bytes: &[u8]) -> String {
    let octal = bytes.iter().map(|byte| format!("\\{byte:03o}"));
    format!("printf '{}'", octal.collect::<String>())
}

/// Writes these bytes, and then does this.
pub fn writes_and(bytes: &[u8], then: &str) -> String {
    format!("{}; {then}", writes(bytes))
}

/// Writes the sheet of the document's file.
pub fn accepts() -> String {
    writes(&ACCEPTED_SHEET)
}

/// Goes on writing for as long as it is let.
pub const ENDLESS: &str = "while :; do echo '1 3 0 1'; done";

/// Starts the tool where no file may get a byte, as on a full disk; and where it may get 512.
pub const ON_A_FULL_DISK: &str = "trap '' XFSZ; ulimit -f 0; exec \"$0\" \"$@\"";
pub const ON_A_SMALL_DISK: &str = "trap '' XFSZ; ulimit -f 1; exec \"$0\" \"$@\"";

/// Runs this line if nothing stands in the folder but these files, and ends with a failure if not.
pub fn if_alone(names: &[&str], line: &str) -> String {
    let listed: String = names.iter().map(|name| format!("{name} ")).collect();
    format!("[ \"$(LC_ALL=C ls -A | tr '\\n' ' ')\" = '{listed}' ] && {line}")
}
