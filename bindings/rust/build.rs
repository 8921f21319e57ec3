//! Finds the libraries: in the folder `MARKRING_LIB_DIR`, or else by pkg-config. With the feature
//! `remote` the client `libmarkring-remote` is one of them, in `MARKRING_REMOTE_LIB_DIR`; with the
//! feature `host` it is `libmarkring-host`, in `MARKRING_HOST_LIB_DIR`.
//!
//! An archive is linked if the folder has one, and a shared library otherwise.

use std::env;
use std::path::PathBuf;
use std::process::{exit, Command};

const ADVICE: &str = "Install the package libmarkring-dev, or set MARKRING_LIB_DIR to the folder \
of libmarkring.a or libmarkring.so, or PKG_CONFIG_PATH to that of markring.pc.";
const HOST_ADVICE: &str = "Install the package libmarkring-dev, or set MARKRING_HOST_LIB_DIR to \
the folder of libmarkring-host.a or .so, or PKG_CONFIG_PATH to that of markring-host.pc.";
const REMOTE_ADVICE: &str = "Install the package markring-node, or set MARKRING_REMOTE_LIB_DIR to \
the folder of libmarkring-remote.so, or PKG_CONFIG_PATH to that of markring-remote.pc.";

// A library: its name, the variable with its folder, whether its archive may be linked (that of
// the client needs libnats besides), and what to do if it can't be found.
struct Library {
    name: &'static str,
    variable: &'static str,
    has_archive: bool,
    advice: &'static str,
}

const LIBRARY: Library = Library {
    name: "markring",
    variable: "MARKRING_LIB_DIR",
    has_archive: true,
    advice: ADVICE,
};
const HOST: Library = Library {
    name: "markring-host",
    variable: "MARKRING_HOST_LIB_DIR",
    has_archive: true,
    advice: HOST_ADVICE,
};
const REMOTE: Library = Library {
    name: "markring-remote",
    variable: "MARKRING_REMOTE_LIB_DIR",
    has_archive: false,
    advice: REMOTE_ADVICE,
};

fn main() {
    for it in ["PKG_CONFIG", "PKG_CONFIG_PATH"] {
        println!("cargo:rerun-if-env-changed={it}");
    }
    // (before the library, which its archive needs)
    if env::var_os("CARGO_FEATURE_HOST").is_some() {
        HOST.link();
    }
    LIBRARY.link();
    if env::var_os("CARGO_FEATURE_REMOTE").is_some() {
        REMOTE.link();
    }
}

impl Library {
    fn link(&self) {
        println!("cargo:rerun-if-env-changed={}", self.variable);
        let named = env::var_os(self.variable).map(PathBuf::from);
        let Some(folder) = named.or_else(|| self.installed()) else {
            self.fail(&format!(
                "pkg-config knows no {} {}",
                self.name,
                env!("CARGO_PKG_VERSION")
            ));
        };
        let archive = folder.join(format!("lib{}.a", self.name));
        let shared = folder.join(format!("lib{}.so", self.name));
        let (file, kind) = match (self.has_archive && archive.exists(), shared.exists()) {
            (true, _) => (archive, "static"),
            (false, true) => (shared, "dylib"),
            (false, false) => self.fail(&format!("the folder {} has no library", folder.display())),
        };
        println!("cargo:rerun-if-changed={}", file.display());
        println!("cargo:rustc-link-search=native={}", folder.display());
        println!("cargo:rustc-link-lib={kind}={}", self.name);
    }

    // The folder that pkg-config knows.
    fn installed(&self) -> Option<PathBuf> {
        let program = env::var_os("PKG_CONFIG").unwrap_or_else(|| "pkg-config".into());
        let wanted = format!("{} >= {}", self.name, env!("CARGO_PKG_VERSION"));
        // (it leaves out folders of the system otherwise)
        let asked = Command::new(program)
            .args(["--libs-only-L", &wanted])
            .env("PKG_CONFIG_ALLOW_SYSTEM_LIBS", "1")
            .output();
        let output = asked.ok().filter(|it| it.status.success())?.stdout;
        let flags = String::from_utf8(output).ok()?;
        let first = flags.split_whitespace().next()?;
        first.strip_prefix("-L").map(PathBuf::from)
    }

    fn fail(&self, why: &str) -> ! {
        eprintln!(
            "The library {} can't be found: {why}. {}",
            self.name, self.advice
        );
        exit(1);
    }
}
