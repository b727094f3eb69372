//! The two programs of README.md, "For programmers": cut out of it, compiled by the commands beside
//! them, and run on the same input. They must print, say and end alike, but where the README says
//! that they do not.

use std::fs::{self, File};
use std::path::{Path, PathBuf};
use std::process::{Command, Output, Stdio};

fn root() -> PathBuf {
    Path::new(env!("CARGO_MANIFEST_DIR")).join("..")
}

/// What stands in `text` between `start` and the next `end`.
fn between<'a>(text: &'a str, start: &str, end: &str) -> &'a str {
    let (_, rest) = text.split_once(start).expect(start);
    rest.split_once(end).expect(end).0
}

fn run(command: &mut Command) -> Output {
    let output = command.output().expect("the command starts");
    let errors = String::from_utf8_lossy(&output.stderr);
    assert!(output.status.success(), "{command:?}\n{errors}");
    output
}

/// Copies a folder with all in it. No link stands for it: `rt ci` refuses a checkout that has one.
fn copy(from: &Path, to: &Path) {
    fs::create_dir_all(to).expect("a folder");
    for entry in fs::read_dir(from).expect("a folder") {
        let path = entry.expect("an entry").path();
        let copied = to.join(path.file_name().expect("a name"));
        if path.is_dir() {
            copy(&path, &copied);
        } else {
            fs::copy(&path, &copied).expect("a copy");
        }
    }
}

/// Pastes the README's program of that language into `rule.LANGUAGE`, in a folder that has what the
/// root has, and compiles it by the README's line that starts with `compiler`, with no warning.
fn compiled(readme: &str, language: &str, fence: &str, compiler: &str) -> PathBuf {
    let folder = PathBuf::from(env!("CARGO_TARGET_TMPDIR")).join(format!("readme-{language}"));
    if folder.exists() {
        fs::remove_dir_all(&folder).expect("the folder of an earlier run is removed");
    }
    fs::create_dir(&folder).expect("a folder");
    fs::create_dir(folder.join("target")).expect("a folder to compile to");
    for part in ["include", "harness/src", "target/staticlib"] {
        copy(&root().join(part), &folder.join(part));
    }
    let program = between(readme, &format!("\n```{fence}\n"), "```\n");
    fs::write(folder.join(format!("rule.{language}")), program).expect("a file");
    let arguments = between(
        readme,
        &format!("\n    {compiler} "),
        " && target/rule <samples/page.sheet\n",
    );
    let output = run(Command::new(compiler)
        .args(arguments.split(' '))
        .current_dir(&folder));
    assert_eq!(String::from_utf8_lossy(&output.stderr), "", "{compiler}");
    folder.join("target/rule")
}

/// What a program prints, says and ends with.
#[derive(Debug, PartialEq, Eq)]
struct End {
    printed: String,
    said: String,
    status: Option<i32>,
}

fn end(program: &mut Command, input: File, stdout: Stdio, stderr: Stdio) -> End {
    let output = program
        .stdin(input)
        .stdout(stdout)
        .stderr(stderr)
        .spawn()
        .and_then(|child| child.wait_with_output())
        .expect("the program runs");
    End {
        printed: String::from_utf8(output.stdout).expect("text"),
        said: String::from_utf8(output.stderr).expect("text"),
        status: output.status.code(),
    }
}

/// The two programs.
struct Programs {
    c: PathBuf,
    rust: PathBuf,
}

impl Programs {
    /// How both end on that input.
    fn end(&self, input: &Path, stdout: fn() -> Stdio, stderr: fn() -> Stdio) -> End {
        let open = || File::open(input).expect("the input");
        let c = end(&mut Command::new(&self.c), open(), stdout(), stderr());
        let rust = end(&mut Command::new(&self.rust), open(), stdout(), stderr());
        assert_eq!(c, rust, "C and Rust on {}", input.display());
        c
    }
}

/// How a program ends that a shell starts with that redirection.
fn redirected(program: &Path, redirection: &str, input: &Path) -> End {
    let mut shell = Command::new("sh");
    shell
        .args(["-c", &format!("exec \"$0\" {redirection}")])
        .arg(program);
    let open = File::open(input).expect("the input");
    end(&mut shell, open, Stdio::piped(), Stdio::piped())
}

fn full() -> Stdio {
    let full = File::options().write(true).open("/dev/full");
    full.expect("/dev/full").into()
}

#[test]
fn the_two_programs_of_the_readme_end_alike() {
    let readme = fs::read_to_string(root().join("README.md")).expect("README.md");
    let programs = Programs {
        c: compiled(&readme, "c", "c", "cc"),
        rust: compiled(&readme, "rs", "rust", "rustc"),
    };
    let samples = root().join("samples");
    for (sample, said, status) in [
        ("page", "refusal 0, 204 bytes, 2 ruled, 1 refused\n", 0),
        ("empty", "refusal 0, 0 bytes, 0 ruled, 0 refused\n", 0),
        ("cut", "refusal 10, 0 bytes, 0 ruled, 0 refused\n", 1),
    ] {
        let sheet = samples.join(sample).with_extension("sheet");
        let text = fs::read_to_string(sheet.with_extension("txt")).expect("the text");
        let ended = programs.end(&sheet, Stdio::piped, Stdio::piped);
        assert_eq!(ended.printed, text, "{sample}");
        assert_eq!(ended.said, said, "{sample}");
        assert_eq!(ended.status, Some(status), "{sample}");
    }

    let long = PathBuf::from(env!("CARGO_TARGET_TMPDIR")).join("long.sheet");
    let case = &fs::read(samples.join("page.sheet")).expect("a sheet")[..88];
    fs::write(&long, case.repeat(601)).expect("a sheet of 601 cases");
    let ended = programs.end(&long, Stdio::piped, Stdio::piped);
    assert_eq!(ended.printed, "SHEET REFUSED 10\n");
    assert_eq!(ended.status, Some(1));
    fs::write(&long, case.repeat(600)).expect("a sheet of 600 cases");
    let ended = programs.end(&long, Stdio::piped, Stdio::piped);
    assert!(
        ended.printed.ends_with("\nEND 600 0\n"),
        "{}",
        ended.printed
    );
    assert_eq!(ended.status, Some(0));

    let unread = programs.end(&samples, Stdio::piped, Stdio::piped);
    assert_eq!(unread.said, "standard input cannot be read\n");
    assert_eq!(unread.status, Some(2));
    let page = samples.join("page.sheet");
    let unwritten = programs.end(&page, full, Stdio::piped);
    assert!(
        unwritten
            .said
            .ends_with("\nstandard output cannot be written\n"),
        "{}",
        unwritten.said
    );
    assert_eq!(unwritten.status, Some(2));
    let unsaid = programs.end(&page, Stdio::piped, full);
    assert!(
        unsaid.printed.ends_with("\nEND 2 1\n"),
        "{}",
        unsaid.printed
    );
    assert_eq!(unsaid.status, Some(0));

    let closed = |program: &Path, redirection| redirected(program, redirection, &page);
    for (redirection, said) in [("<&-", "standard input"), (">&-", "standard output")] {
        let c = closed(&programs.c, redirection);
        assert!(c.said.contains(said), "{redirection}: {}", c.said);
        assert_eq!(
            (c.printed.as_str(), c.status),
            ("", Some(2)),
            "{redirection}"
        );
    }
    let empty = fs::read_to_string(samples.join("empty.txt")).expect("the text");
    let rust = closed(&programs.rust, "<&-");
    assert_eq!((rust.printed, rust.status), (empty, Some(0)));
    let rust = closed(&programs.rust, ">&-");
    assert_eq!((rust.printed.as_str(), rust.status), ("", Some(0)));
}

#[test]
fn the_safe_interface_is_good_rust_of_every_edition() {
    let out = PathBuf::from(env!("CARGO_TARGET_TMPDIR")).join("editions");
    fs::create_dir_all(&out).expect("a folder");
    for edition in ["2015", "2018", "2021", "2024"] {
        run(Command::new("rustc")
            .args([
                "--crate-type",
                "lib",
                "--emit",
                "metadata",
                "--edition",
                edition,
                "--out-dir",
            ])
            .arg(&out)
            .arg(root().join("harness/src/desk.rs")));
    }
}
