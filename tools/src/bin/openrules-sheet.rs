//! Writes a sheet from Cedar's JSON: a schema, a policy set, entities and a request. `--json` is the way back.

use clap::{Arg, ArgAction, ArgMatches, Command};
use openrules::sheet::{Day, Mode, Sheet};
use openrules::{Evaluator, Verdict};
use openrules_tools::cedar::error::Error;
use openrules_tools::cedar::{self, print, File, Files, Options};
use std::io::Write;
use std::path::Path;
use std::process::ExitCode;

/// The four files, by option and by name in a folder.
const FILES: [&str; 4] = ["schema", "policies", "entities", "request"];

fn options() -> Command {
    let help = [
        "The schema, in JSON",
        "The policy set, in JSON: staticPolicies, templates and templateLinks",
        "The entities, a list with uid, attrs, parents and tags",
        "The request: principal, action, resource and context",
    ];
    let file = |(name, help)| Arg::new(name).long(name).value_name("FILE").required_unless_present("json").help(help);
    let flag = |name: &'static str, help: &'static str| Arg::new(name).long(name).action(ArgAction::SetTrue).help(help);
    let day = |text: &str| text.parse::<Day>();
    Command::new("openrules-sheet")
        .about("Writes a sheet from Cedar's JSON formats to standard output")
        .args(FILES.into_iter().zip(help).map(file))
        .arg(flag("partial", "Writes a partial sheet: what is not there or null is unknown"))
        .arg(flag("short", "Leaves away all parts of conditions that never run for the request's types"))
        .arg(
            Arg::new("after")
                .long("after")
                .value_name("SHEET")
                .help("A partial sheet, of the same schema, policies and question, that the complete one is to agree with"),
        )
        .arg(
            Arg::new("day")
                .long("day")
                .value_name("YYYY-MM-DD")
                .value_parser(day)
                .default_value("2000-01-01")
                .help("The day of the request"),
        )
        .arg(
            Arg::new("json")
                .long("json")
                .value_names(["SHEET", "FOLDER"])
                .num_args(2)
                .conflicts_with_all(FILES.into_iter().chain(["partial", "short", "after"]))
                .help("The way back: writes schema.json, policies.json, entities.json and request.json of a sheet to a folder"),
        )
}

fn bytes(name: &str) -> Result<Vec<u8>, Error> {
    std::fs::read(name).map_err(|cause| Error::File { file: name.into(), cause })
}

/// The sheet in a file.
fn read_sheet(name: &str) -> Result<Sheet, Error> {
    Sheet::read(&bytes(name)?).map_err(|fault| Error::Sheet { file: name.into(), fault })
}

/// The sheet of four files, which the library accepts.
fn sheet(options: &ArgMatches) -> Result<String, Error> {
    let names = FILES.map(|option| options.get_one::<String>(option).map_or("", String::as_str));
    let read = [bytes(names[0])?, bytes(names[1])?, bytes(names[2])?, bytes(names[3])?];
    let [schema, policies, entities, request] = [0, 1, 2, 3].map(|place| File { name: names[place], bytes: &read[place] });
    let before = options.get_one::<String>("after").map(|name| read_sheet(name)).transpose()?;
    let wanted = Options {
        mode: if options.get_flag("partial") { Mode::Partial } else { Mode::Complete },
        day: options.get_one("day").copied().unwrap_or(Day { year: 2000, month: 1, day: 1 }),
        short: options.get_flag("short"),
        after: before.as_ref(),
    };
    let sheet = cedar::sheet(&Files { schema, policies, entities, request }, &wanted)?.to_string();
    Evaluator::new().answer(sheet.as_bytes()).map_err(|error| Error::Unanswered { error })?;
    Ok(sheet)
}

/// The decision, and the id, effect and class of each policy, by id.
fn lines(sheet: &[u8]) -> Result<Vec<String>, Error> {
    let answer = Evaluator::new().answer(sheet).map_err(|error| Error::Unanswered { error })?;
    let line = |policy: &Verdict| format!("{}: {}, {}", policy.id, policy.effect, policy.class);
    let mut lines: Vec<String> = answer.policies.iter().map(line).collect();
    lines.sort();
    lines.push(answer.decision.to_string());
    Ok(lines)
}

/// The text of the files of a sheet, in their order. Read again they are answered as the sheet is.
fn texts(name: &str) -> Result<[String; 4], Error> {
    let (bytes, sheet) = (bytes(name)?, read_sheet(name)?);
    let unwritten = |error| Error::Unwritten { file: name.into(), error };
    let before = lines(&bytes)?;
    let files = print::sheet(&sheet).map_err(unwritten)?;
    let texts = [files.schema, files.policies, files.entities, files.request].map(|json| format!("{json}\n"));
    let [schema, policies, entities, request] =
        [0, 1, 2, 3].map(|place| File { name: FILES[place], bytes: texts[place].as_bytes() });
    let options = Options { mode: sheet.mode, day: sheet.day, short: false, after: None };
    let again = cedar::sheet(&Files { schema, policies, entities, request }, &options)?;
    match lines(again.to_string().as_bytes())? == before {
        true => Ok(texts),
        false => Err(unwritten(print::Error::Types)),
    }
}

/// Writes the files of a sheet to a folder.
fn json(name: &str, folder: &str) -> Result<(), Error> {
    let texts = texts(name)?;
    std::fs::create_dir_all(folder).map_err(|cause| Error::File { file: folder.into(), cause })?;
    for (name, text) in FILES.into_iter().zip(texts) {
        let file = Path::new(folder).join(format!("{name}.json"));
        std::fs::write(&file, text).map_err(|cause| Error::File { file: file.display().to_string(), cause })?;
    }
    Ok(())
}

fn run(options: &ArgMatches) -> Result<String, Error> {
    match options.get_many::<String>("json").map(|words| words.collect::<Vec<_>>()).as_deref() {
        Some([name, folder]) => json(name, folder).map(|()| String::new()),
        _ => sheet(options),
    }
}

fn main() -> ExitCode {
    let outcome = run(&options().get_matches());
    let written = match &outcome {
        Ok(sheet) => std::io::stdout().write_all(sheet.as_bytes()).is_ok(),
        Err(error) => {
            eprintln!("openrules-sheet: {error}");
            false
        }
    };
    ExitCode::from(u8::from(!written))
}
