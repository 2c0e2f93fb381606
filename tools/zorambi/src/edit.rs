//! `edit DIR`: hands over to the editor's server, which Python runs. Rows and verdicts come from this program again: the server asks
//! `zorambi grow --json`.

use crate::end::{Ended, Stop};
use crate::programs::{beside, own_file};
use std::os::unix::process::CommandExt;
use std::path::Path;
use std::process::{Command, Stdio};
use zorambi::files::enter;
use zorambi_commands::Given;

/// The oldest Python that the server runs on.
const PYTHON: &str = "import sys; sys.exit(sys.version_info < (3, 9))";

pub fn edit(given: &Given) -> Result<Ended, Stop> {
    let folder = Path::new(&given.names[0]);
    enter(folder).map_err(|why| Stop::Wrong(why.to_string()))?;
    let own = own_file()?;
    let server = beside("edit", "../../tools/zorambi", Path::is_dir).map_err(|[installed, built]| {
        Stop::Wrong(format!("the editor's server is missing: neither {installed} nor {built} is there; install again"))
    })?;
    let is_there =
        Command::new("python3").args(["-I", "-c", PYTHON]).stdin(Stdio::null()).stderr(Stdio::null()).status();
    if !is_there.is_ok_and(|status| status.success()) {
        return Err(Stop::Wrong(
            "the editor's server needs Python 3.9 or later, and 'python3' is not that: install it and put it on the PATH; \
             'zorambi grow' needs none, and follows lines"
                .to_string(),
        ));
    }
    let mut python = Command::new("python3");
    // Isolated, and without files of compiled code beside the server's.
    python.args(["-I", "-B"]).arg(server).arg(own);
    python.args(["--no-browser"].iter().filter(|option| given.has(option))).arg("--").arg(folder);
    Err(Stop::Wrong(format!("python3 cannot be run: {}", python.exec())))
}
