//! The scripts as their callers meet them: what they print, install and pack, with which status,
//! and what they do without.

use oracle::recording::{Clock, Recording};
use oracle::sheet::{make_sheet, print};
use std::ffi::OsStr;
use std::fs::{self, Permissions};
use std::os::unix::fs::{symlink, MetadataExt, PermissionsExt};
use std::os::unix::process::CommandExt;
use std::path::{Path, PathBuf};
use std::process::{Command, Stdio};
use std::sync::OnceLock;
use std::thread;

const SHEET_D: &[u8] = include_bytes!("../../../examples/recording_d.sheet");
const TABLE_D: &str = include_str!("../../../crates/plan/stdout");
const PLAN_D: &str = include_str!("../../../examples/plan_d.txt");

/// The user nobody.
const NOBODY: u32 = 65534;

fn root() -> PathBuf {
    Path::new(env!("CARGO_MANIFEST_DIR")).join("../..")
}

fn script(name: &str) -> PathBuf {
    root().join("scripts").join(name)
}

fn sheet_d() -> PathBuf {
    root().join("examples/recording_d.sheet")
}

/// An empty folder of the test's own.
fn folder(name: &str) -> PathBuf {
    let folder = Path::new(env!("CARGO_TARGET_TMPDIR"))
        .join("scripts")
        .join(name);
    let _ = fs::remove_dir_all(&folder);
    fs::create_dir_all(&folder).unwrap();
    folder
}

/// An empty folder outside the repository, which every user may enter; removed in the end. Links
/// and a list of crates stand in such a folder alone: the prover takes no repository that has some
/// of them, in whichever folder, and the gate runs again where these tests have run.
struct Outside(PathBuf);

impl Outside {
    fn new(name: &str) -> Outside {
        let name = format!("kashuloden-{name}-{}", std::process::id());
        let folder = std::env::temp_dir().join(name);
        fs::create_dir(&folder).unwrap();
        set_mode(&folder, 0o755);
        Outside(folder)
    }
}

impl Drop for Outside {
    fn drop(&mut self) {
        set_mode(&self.0, 0o755);
        let _ = fs::remove_dir_all(&self.0);
    }
}

fn set_mode(path: &Path, mode: u32) {
    fs::set_permissions(path, Permissions::from_mode(mode)).unwrap();
}

/// By another process: no program runs while it is open for writing, and whatever a test beside
/// starts just then holds it open too.
fn write_program(path: &Path, text: &str) {
    let mut shell = Command::new("sh");
    shell.args(["-c", r#"printf %s "$1" >"$0" && chmod +x "$0""#]);
    printed(shell.arg(path).arg(text));
}

fn on_path(name: &str) -> PathBuf {
    let path = std::env::var_os("PATH").unwrap();
    let found = std::env::split_paths(&path).map(|folder| folder.join(name));
    found.into_iter().find(|file| file.is_file()).unwrap()
}

#[derive(Debug)]
struct Said {
    status: Option<i32>,
    out: String,
    err: String,
}

fn run(command: &mut Command) -> Said {
    let output = command.output().unwrap();
    Said {
        status: output.status.code(),
        out: String::from_utf8(output.stdout).unwrap(),
        err: String::from_utf8(output.stderr).unwrap(),
    }
}

fn plan<Word: AsRef<OsStr>>(words: &[Word]) -> Said {
    run(Command::new(script("plan")).args(words))
}

#[track_caller]
fn prints(said: &Said, status: i32, text: &str) {
    assert_eq!(said.status, Some(status), "{said:?}");
    assert_eq!(said.out, text, "{said:?}");
}

/// Nothing is printed, and one line says what is wrong.
#[track_caller]
fn fails(said: &Said, status: i32, words: &str) {
    prints(said, status, "");
    says(said, words);
}

#[track_caller]
fn says(said: &Said, words: &str) {
    assert_eq!(said.err.lines().count(), 1, "{said:?}");
    assert!(said.err.contains(words), "{said:?}");
}

#[track_caller]
fn plan_fails(said: &Said, status: i32, words: &str) {
    fails(said, status, words);
    assert!(said.err.starts_with("plan: "), "{said:?}");
}

/// What a command prints that has to go well.
#[track_caller]
fn printed(command: &mut Command) -> String {
    let said = run(command);
    assert_eq!(said.status, Some(0), "{command:?} {said:?}");
    said.out
}

#[test]
fn a_table() {
    prints(&plan(&[sheet_d()]), 0, TABLE_D);
}

#[test]
fn several_at_once() {
    let calls: Vec<_> = (0..6)
        .map(|_| thread::spawn(|| plan(&[sheet_d()])))
        .collect();
    for call in calls {
        prints(&call.join().unwrap(), 0, TABLE_D);
    }
}

#[test]
fn a_refusal() {
    let cut = folder("refusal").join("cut.sheet");
    fs::write(&cut, &SHEET_D[..100]).unwrap();
    prints(&plan(&[cut]), 1, "refused 12 at 0\n");
}

#[test]
fn wrong_calls() {
    plan_fails(&plan::<&str>(&[]), 2, "scripts/plan SHEET");
    plan_fails(&plan(&["a.sheet", "b.sheet"]), 2, "scripts/plan SHEET");
    plan_fails(&plan(&["no/such.sheet"]), 2, "no/such.sheet");
    plan_fails(&plan(&["/proc"]), 2, "/proc");
}

#[test]
fn a_read_that_fails() {
    plan_fails(&plan(&["/proc/self/mem"]), 3, "/proc/self/mem");
}

#[test]
fn a_write_that_fails() {
    for output in [">/dev/full", ">&-"] {
        let mut shell = Command::new("sh");
        shell.args(["-c", &format!(r#""$0" "$1" {output}"#)]);
        let said = run(shell.arg(script("plan")).arg(sheet_d()));
        plan_fails(&said, 3, "standard output");
    }
}

#[test]
fn a_reader_that_has_gone() {
    let mut command = Command::new(script("plan"));
    command.arg(sheet_d());
    command.stdout(Stdio::piped()).stderr(Stdio::piped());
    let mut child = command.spawn().unwrap();
    drop(child.stdout.take());
    let output = child.wait_with_output().unwrap();
    assert_eq!(output.status.code(), Some(3));
}

#[test]
fn a_sheet_that_never_ends() {
    prints(&plan(&["/dev/zero"]), 1, "refused 1 at 0\n");
}

#[test]
fn the_largest_sheet_and_one_byte_more() {
    let (ticks, rates): (Vec<u64>, Vec<u64>) = ((0..4096).collect(), (1..=32).collect());
    let rec = Recording {
        sizes: &[1; 4096],
        ticks: &ticks,
        clock: Clock { ts: 1, nu: 1 },
    };
    let mut bytes = make_sheet(&rec, &rates);
    assert_eq!(bytes.len(), 32924);

    let path = folder("largest").join("largest.sheet");
    fs::write(&path, &bytes).unwrap();
    prints(&plan(&[&path]), 0, &print(&bytes));
    bytes.push(0);
    fs::write(&path, &bytes).unwrap();
    prints(&plan(&[&path]), 1, "refused 12 at 0\n");
}

#[test]
fn by_a_link_from_another_folder() {
    let outside = Outside::new("link");
    let folder = &outside.0;
    let link = folder.join("planned");
    symlink(script("plan"), &link).unwrap();
    fs::write(folder.join("-"), SHEET_D).unwrap();
    let said = run(Command::new(link).arg("-").current_dir(folder));
    prints(&said, 0, TABLE_D);
}

/// With nothing on the PATH but `sed`.
#[test]
fn help_starts_nothing() {
    let outside = Outside::new("help");
    let bin = &outside.0;
    symlink(on_path("sed"), bin.join("sed")).unwrap();
    for entry in fs::read_dir(root().join("scripts")).unwrap() {
        let path = entry.unwrap().path();
        let text = fs::read_to_string(&path).unwrap();
        let header = text
            .lines()
            .skip(1)
            .map_while(|line| line.strip_prefix("# "));
        let header: String = header.flat_map(|line| [line, "\n"]).collect();
        let name = path.file_name().unwrap().to_str().unwrap();
        assert!(header.contains(&format!("  scripts/{name}")), "{path:?}");
        for word in ["--help", "-h"] {
            let said = run(Command::new(&path).arg(word).env("PATH", bin));
            prints(&said, 0, &header);
        }
    }
}

#[test]
fn the_help_names_the_statuses() {
    let help = plan(&["--help"]).out;
    let statuses = [
        "0 a table",
        "1 the sheet",
        "2 a wrong call",
        "3 a read",
        "4 the program",
    ];
    assert!(
        statuses.iter().all(|status| help.contains(status)),
        "{help}"
    );
}

#[test]
fn wrong_calls_of_the_other_scripts() {
    for name in ["test", "dist"] {
        let said = run(Command::new(script(name)).arg("more"));
        fails(&said, 2, &format!("usage: scripts/{name}"));
    }
    let said = run(Command::new(script("setup")).args(["rt", "ls"]));
    fails(&said, 2, "usage: scripts/setup");
    let said = run(Command::new(script("build")).arg("more"));
    fails(&said, 2, "scripts/build");
    let said = run(&mut Command::new(script("plot")));
    fails(&said, 2, "scripts/plot curve|fill RECORDING");
    for words in [&[][..], &[""], &["--prefix"], &["a", "b"]] {
        let said = run(Command::new(script("install")).args(words));
        fails(&said, 2, "scripts/install PREFIX");
    }
}

/// A folder for the PATH with all that is installed but Cargo and Rust, with the kit, and with
/// package tools that leave a mark beside it and fail.
fn path_without_cargo(folder: &Path) -> PathBuf {
    let bin = folder.join("bin");
    fs::create_dir(&bin).unwrap();
    let text = format!(
        "#!/bin/sh\n: >'{}'\nexit 1\n",
        folder.join("mark").display()
    );
    for tool in ["apt-get", "apt"] {
        write_program(&bin.join(tool), &text);
    }
    symlink(on_path("rt"), bin.join("rt")).unwrap();
    let entries = ["/usr/bin", "/bin"].map(|folder| fs::read_dir(folder).unwrap());
    for entry in entries.into_iter().flatten() {
        let path = entry.unwrap().path();
        let name = path.file_name().unwrap().to_str().unwrap();
        let left_out = ["cargo", "rustc", "apt"];
        if !left_out.iter().any(|tool| name.starts_with(tool)) {
            // A name comes twice where /bin is /usr/bin.
            let _ = symlink(&path, bin.join(name));
        }
    }
    bin
}

#[test]
fn without_cargo() {
    let outside = Outside::new("without-cargo");
    let folder = &outside.0;
    let mut command = Command::new(script("plan"));
    command.env("PATH", path_without_cargo(folder));
    prints(&run(command.arg(sheet_d())), 0, TABLE_D);
    assert!(!folder.join("mark").exists());
}

/// Makes a checkout of the program, older than its sources, of what plans with it and of a sheet.
fn small_checkout(folder: &Path) {
    let mut copy = Command::new("cp");
    copy.args([
        "-p",
        "--parents",
        "scripts/plan",
        "scripts/setup",
        "crates/plan/out/plan",
    ]);
    printed(copy.arg(folder).current_dir(root()));
    fs::write(folder.join("crates.txt"), "").unwrap();
    fs::write(folder.join("d.sheet"), SHEET_D).unwrap();
}

/// Plans the sheet of a small checkout as nobody where this is root, whom no mode keeps from
/// writing.
fn plan_as_nobody(checkout: &Path) -> Said {
    let mut command = Command::new(checkout.join("scripts/plan"));
    if fs::metadata("/proc/self").unwrap().uid() == 0 {
        command.uid(NOBODY);
    }
    run(command.arg("d.sheet").current_dir(checkout))
}

#[test]
fn a_checkout_that_cannot_be_written() {
    let outside = Outside::new("read-only");
    let checkout = &outside.0;
    small_checkout(checkout);
    set_mode(checkout, 0o555);
    let said = plan_as_nobody(checkout);
    prints(&said, 0, TABLE_D);
    says(&said, "is read-only: the program built before is used");

    fs::remove_file(checkout.join("crates/plan/out/plan")).unwrap();
    plan_fails(&plan_as_nobody(checkout), 4, "crates/plan/out/plan");
    set_mode(&checkout.join("d.sheet"), 0);
    plan_fails(&plan_as_nobody(checkout), 2, "d.sheet");
}

/// What scripts/test says where the kit's gate prints these lines and ends with a status, and where
/// Cargo and all else pass.
fn gate(name: &str, lines: &str, status: i32) -> Said {
    let checkout = folder(name);
    let mut copy = Command::new("cp");
    copy.args(["-p", "--parents", "scripts/test", "scripts/setup"]);
    printed(copy.arg(&checkout).current_dir(root()));
    for made in ["bin", "crates/planner_c", "crates/plan"] {
        fs::create_dir_all(checkout.join(made)).unwrap();
    }
    fs::write(checkout.join("lines"), lines).unwrap();
    let bin = checkout.join("bin");
    let kit = format!("#!/bin/sh\n[ \"$*\" = ci ] || exit 0\ncat lines\nexit {status}\n");
    write_program(&bin.join("rt"), &kit);
    write_program(&bin.join("cargo"), "#!/bin/sh\n");
    let path = format!("{}:{}", bin.display(), std::env::var("PATH").unwrap());
    run(Command::new(checkout.join("scripts/test")).env("PATH", path))
}

#[test]
fn the_gate_ends_as_the_kit_does() {
    let passed = "29 passed, 0 failed\n";
    let ok = "rt: ok; handles allowed: none; must-fail edits: 93 refused; every proof was done\n";
    let said = gate("gate", &format!("{ok}{passed}"), 0);
    prints(&said, 0, &format!("{ok}{passed}{passed}"));
    let limit = ok.replace("refused", "refused, 2 of them only by a limit");
    let said = gate("gate_limit", &format!("{limit}{passed}"), 0);
    prints(&said, 0, &format!("{limit}{passed}{passed}"));

    let failed = "rt: FAILED: print\n28 passed, 1 failed\n";
    prints(&gate("gate_failed", failed, 1), 1, failed);
}

/// The kit's gate passes over an edit that cannot be applied, and scripts/test does not.
#[test]
fn an_edit_that_cannot_be_applied_fails_the_gate() {
    let passed = "29 passed, 0 failed\n";
    for (number, bad) in ["1 bad", "2 of them only by a limit, 10 bad"]
        .into_iter()
        .enumerate()
    {
        let ok = format!("rt: ok; handles allowed: none; must-fail edits: 9 refused, {bad}; all\n");
        let said = gate(&format!("gate_bad_{number}"), &format!("{ok}{passed}"), 0);
        prints(&said, 1, &format!("{ok}{passed}"));
        assert!(said.err.ends_with("are bad: mend them\n"), "{said:?}");
    }
    let said = gate("gate_silent", passed, 0);
    prints(&said, 1, passed);
    assert!(said.err.contains("no line 'rt: ok'"), "{said:?}");
}

/// A PATH with a kit before all else that does nothing but end with a status.
fn path_with_kit(folder: &Path, status: i32) -> String {
    write_program(&folder.join("rt"), &format!("#!/bin/sh\nexit {status}\n"));
    format!("{}:{}", folder.display(), std::env::var("PATH").unwrap())
}

fn plan_with_kit(name: &str, status: i32) -> Said {
    let outside = Outside::new(name);
    let checkout = &outside.0;
    small_checkout(checkout);
    let mut command = Command::new(checkout.join("scripts/plan"));
    command.env("PATH", path_with_kit(checkout, status));
    run(command.arg("d.sheet").current_dir(checkout))
}

#[test]
fn a_program_that_has_to_be_built() {
    let said = plan_with_kit("built", 0);
    prints(&said, 0, TABLE_D);
    says(&said, "is being proved and built");
}

#[test]
fn a_text_that_is_cut_short() {
    let outside = Outside::new("cut-short");
    let checkout = &outside.0;
    small_checkout(checkout);
    let cut = "#!/bin/sh\nprintf 'rate buffer start\\n250 10'\n";
    write_program(&checkout.join("crates/plan/out/plan"), cut);
    let mut command = Command::new(checkout.join("scripts/plan"));
    command.env("PATH", path_with_kit(checkout, 0));
    let said = run(command.arg("d.sheet").current_dir(checkout));
    plan_fails(&said, 3, "cut short");
}

#[test]
fn a_program_that_is_not_proved_is_not_run() {
    let said = plan_with_kit("not-proved", 1);
    prints(&said, 4, "");
    let last = said.err.lines().last().unwrap();
    assert!(last.starts_with("plan: ") && last.ends_with("build/plan.log"));
}

/// By a link from another folder; what is built runs anywhere.
#[test]
fn the_command_is_built() {
    let outside = Outside::new("build");
    let folder = &outside.0;
    let link = folder.join("built");
    symlink(script("build"), &link).unwrap();
    let program = printed(Command::new(link).current_dir(folder));
    let built = root().canonicalize().unwrap().join("build/kashuloden");
    assert_eq!(program, format!("{}\n", built.display()));
    let mut command = Command::new(built);
    command.args(["sheet", "text", "-"]).current_dir(folder);
    command.stdin(fs::File::open(sheet_d()).unwrap());
    assert_eq!(printed(&mut command), TABLE_D);
}

#[test]
fn a_command_whose_library_is_not_proved_is_not_built() {
    let checkout = folder("not_built");
    let mut copy = Command::new("cp");
    copy.args(["-p", "--parents", "scripts/build", "scripts/setup"]);
    printed(copy.arg(&checkout).current_dir(root()));
    fs::create_dir_all(checkout.join("crates/planner_c")).unwrap();
    let mut command = Command::new(checkout.join("scripts/build"));
    let said = run(command.env("PATH", path_with_kit(&checkout, 1)));
    prints(&said, 4, "");
    assert!(said.err.ends_with("build/build.log\n"), "{said:?}");
    assert!(!checkout.join("build/kashuloden").exists());
}

/// The tree that scripts/install makes: called by a link from another folder, with a relative
/// PREFIX and without Cargo, and moved afterwards.
fn installed() -> &'static Path {
    static TREE: OnceLock<PathBuf> = OnceLock::new();
    TREE.get_or_init(|| {
        let folder = folder("install");
        let outside = Outside::new("install");
        let link = outside.0.join("installed");
        symlink(script("install"), &link).unwrap();
        let mut command = Command::new(link);
        command.arg("tree").current_dir(&folder);
        let said = run(command.env("PATH", path_without_cargo(&outside.0)));
        let files = [
            "lib/libplanner.a",
            "include/planner.h",
            "lib/pkgconfig/kashuloden.pc",
        ];
        let tree = folder.join("tree");
        let lines = files.map(|file| format!("{}\n", tree.join(file).display()));
        prints(&said, 0, &lines.concat());
        assert!(!outside.0.join("mark").exists());

        let moved = folder.join("moved");
        fs::rename(tree, &moved).unwrap();
        moved
    })
}

/// The words of pkg-config about the library of a tree.
fn pkg_config(tree: &Path, words: &[&str]) -> Vec<String> {
    let mut command = Command::new("pkg-config");
    command.args(words).arg("kashuloden");
    let text = printed(command.env("PKG_CONFIG_PATH", tree.join("lib/pkgconfig")));
    text.split_whitespace().map(String::from).collect()
}

/// Compiles with the library of a tree.
fn compile(folder: &Path, words: &[&str], tree: &Path) {
    let mut command = Command::new("cc");
    command.args(["-std=c99", "-pedantic", "-Wall", "-Wextra", "-Werror"]);
    command
        .args(words)
        .args(pkg_config(tree, &["--cflags", "--libs"]));
    printed(command.current_dir(folder));
}

/// What the example in C prints, compiled in a folder that has nothing else.
fn c_example(name: &str, tree: &Path) -> String {
    let folder = folder(name);
    fs::copy(root().join("examples/c/plan_d.c"), folder.join("plan_d.c")).unwrap();
    compile(&folder, &["-o", "plan_d", "plan_d.c"], tree);
    printed(&mut Command::new(folder.join("plan_d")))
}

#[test]
fn the_installed_library_in_c() {
    assert_eq!(c_example("installed_c", installed()), PLAN_D);
}

#[test]
fn the_installed_version() {
    let header = fs::read_to_string(installed().join("include/planner.h")).unwrap();
    let version = ["MAJOR", "MINOR", "PATCH"].map(|part| {
        let define = format!("#define PLANNER_VERSION_{part} ");
        let mut numbers = header.lines().filter_map(|line| line.strip_prefix(&define));
        numbers.next().unwrap()
    });
    assert_eq!(
        pkg_config(installed(), &["--modversion"]),
        [version.join(".")]
    );
}

#[test]
fn the_installed_library_in_a_shared_object() {
    let folder = folder("shared");
    let source = "#include \"planner.h\"\n\
                  PlannerSeconds seconds(void) { return planner_seconds(1000, 5000, 5000); }\n";
    fs::write(folder.join("seconds.c"), source).unwrap();
    let words = [
        "-shared",
        "-fPIC",
        "-Wl,-z,defs,-z,text",
        "-o",
        "seconds.so",
        "seconds.c",
    ];
    compile(&folder, &words, installed());
    let source = "#include <planner.h>\n#include <stdio.h>\nPlannerSeconds seconds(void);\n\
                  int main(void) { printf(\"%.1f\", seconds().wait); return 0; }\n";
    fs::write(folder.join("main.c"), source).unwrap();
    compile(
        &folder,
        &["-o", "main", "main.c", "./seconds.so"],
        installed(),
    );
    let mut main = Command::new(folder.join("main"));
    assert_eq!(printed(main.current_dir(&folder)), "5.0");
}

#[test]
fn what_the_installed_library_leaves_undefined() {
    let mut command = Command::new("nm");
    let text = printed(command.arg("-u").arg(installed().join("lib/libplanner.a")));
    let mut names = text
        .lines()
        .filter_map(|line| line.trim().strip_prefix("U "));
    assert!(
        names.all(|name| ["memcpy", "memset"].contains(&name)),
        "{text}"
    );
}

/// The sources would be mixed with what is made of them.
#[test]
fn an_install_to_the_checkout_itself() {
    let before = fs::read(root().join("include/planner.h")).unwrap();
    let said = run(Command::new(script("install")).arg(".").current_dir(root()));
    fails(&said, 2, "another folder is wanted");
    assert!(!root().join("lib").exists());
    assert!(fs::read(root().join("include/planner.h")).unwrap() == before);
}

#[test]
fn a_library_that_is_not_proved_is_not_installed() {
    let checkout = folder("not_installed");
    let mut copy = Command::new("cp");
    copy.args(["-p", "--parents", "scripts/install", "scripts/setup"]);
    printed(copy.arg(&checkout).current_dir(root()));
    fs::create_dir_all(checkout.join("crates/planner_c")).unwrap();
    let mut command = Command::new(checkout.join("scripts/install"));
    command.env("PATH", path_with_kit(&checkout, 1));
    let said = run(command.arg("tree").current_dir(&checkout));
    prints(&said, 4, "");
    assert!(said.err.ends_with("build/staticlib.log\n"), "{said:?}");
    assert!(!checkout.join("tree/lib/libplanner.a").exists());
}

#[test]
fn an_install_that_cannot_be_written() {
    let file = folder("install_below").join("file");
    fs::write(&file, "").unwrap();
    let said = run(Command::new(script("install")).arg(file.join("tree")));
    fails(&said, 3, "file/tree");
}

/// The archive that a run of scripts/dist packs.
fn packed(path: &str) -> PathBuf {
    let said = run(Command::new(script("dist")).env("PATH", path));
    assert_eq!(said.status, Some(0), "{said:?}");
    PathBuf::from(said.out.trim_end())
}

/// A program of somebody's who has the packed tree below their own workspace.
fn embedded(tree: &Path, site: &Path) -> String {
    let name = tree.file_name().unwrap().to_str().unwrap();
    fs::create_dir_all(site.join("program/src")).unwrap();
    fs::create_dir(site.join("vendor")).unwrap();
    fs::rename(tree, site.join("vendor").join(name)).unwrap();
    let workspace = "[workspace]\nresolver = \"2\"\nmembers = [\"program\"]\n";
    fs::write(site.join("Cargo.toml"), workspace).unwrap();
    let package = "[package]\nname = \"program\"\nversion = \"0.1.0\"\nedition = \"2021\"\n";
    let planner = format!("[dependencies]\nplanner = {{ path = \"../vendor/{name}/rust\" }}\n");
    fs::write(
        site.join("program/Cargo.toml"),
        format!("{package}{planner}"),
    )
    .unwrap();
    let source = "fn main() { println!(\"{}\", planner::version() == planner::VERSION); }\n";
    fs::write(site.join("program/src/main.rs"), source).unwrap();
    let mut cargo = Command::new(env!("CARGO"));
    cargo.args(["run", "--quiet", "--offline", "--package", "program"]);
    cargo.env("CARGO_TARGET_DIR", site.join("build"));
    printed(cargo.current_dir(site))
}

/// Packed twice: with the kit, and, to save its time, with the library that is there then.
#[test]
fn the_packed_tree() {
    let archive = packed(&std::env::var("PATH").unwrap());
    let bytes = fs::read(&archive).unwrap();
    let outside = Outside::new("packed");
    let mut unpack = Command::new("tar");
    printed(unpack.arg("-xzf").arg(&archive).current_dir(&outside.0));
    assert_eq!(packed(&path_with_kit(&folder("packed_again"), 0)), archive);
    assert!(
        fs::read(&archive).unwrap() == bytes,
        "the two archives differ"
    );

    let name = archive.file_name().unwrap().to_str().unwrap();
    let tree = outside.0.join(name.strip_suffix(".tar.gz").unwrap());
    let library = |tree: &Path| fs::read(tree.join("lib/libplanner.a")).unwrap();
    assert!(
        library(&tree) == library(installed()),
        "the two libraries differ"
    );

    assert_eq!(c_example("packed_c", &tree), PLAN_D);
    let mut example = Command::new(env!("CARGO"));
    example.args(["run", "--quiet", "--offline", "--example", "plan_d"]);
    example.env("CARGO_TARGET_DIR", folder("packed_cargo"));
    assert_eq!(printed(example.current_dir(tree.join("rust"))), PLAN_D);
    assert_eq!(embedded(&tree, &outside.0.join("site")), "true\n");
}
