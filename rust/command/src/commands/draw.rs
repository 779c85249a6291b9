//! `pattern draw`: a picture, a page, or pictures of the steps.

use std::ffi::OsStr;
use std::path::{Path, PathBuf};

use super::{HTML, LABELS, SIZE, STEP, STEPS};
use crate::cli::{Answer, Call, JSON, OUTPUT};
use crate::document::{self, Document};
use crate::draw::{self, Labels, Layout, Options, View};
use crate::fault::{Fault, Status};
use crate::finding::Finding;
use crate::json::Json;
use crate::prices::Prices;
use crate::{disk, files, parallel};

/// What is asked of the picture.
pub fn options(call: &Call) -> Result<Options, Fault> {
    let mut options = Options::default();
    if let Some(size) = call.value(&SIZE) {
        options.size = self::size(size)?;
    }
    if let Some(labels) = call.value(&LABELS) {
        options.labels = match labels.to_str().unwrap_or_default() {
            "all" => Labels::All,
            "names" => Labels::Names,
            "sizes" => Labels::Sizes,
            "none" => Labels::None,
            _ => return Err(Fault::Usage("--labels is one of all, names, sizes and none".to_string())),
        };
    }
    Ok(options)
}

/// A size: a width, or a width and a height with an x between.
fn size(text: &OsStr) -> Result<[f64; 2], Fault> {
    let text = text.to_str().unwrap_or_default();
    let (width, height) = text.split_once('x').unwrap_or((text, ""));
    let number = |text: &str| text.parse::<u32>().ok().map(f64::from).filter(|size| draw::SIZES.contains(size));
    let sizes = match height {
        "" => number(width).map(|width| [width, (0.75 * width).max(draw::SIZES.start)]),
        height => number(width).and_then(|width| Some([width, number(height)?])),
    };
    let usage = || Fault::Usage("--size is a width or WIDTHxHEIGHT in pixels, from 300 to 20000".to_string());
    sizes.filter(|_| !text.ends_with('x')).ok_or_else(usage)
}

/// The step of the plan by its place, counted from 1.
fn chosen<'a>(document: &Document, views: &'a [View], step: &OsStr) -> Result<&'a View, Fault> {
    let number = step.to_str().and_then(|step| step.parse::<usize>().ok());
    let view = number.and_then(|number| number.checked_sub(1)).and_then(|place| views.get(place));
    view.ok_or_else(|| {
        let (path, step) = (&document.path, step.to_string_lossy());
        let plan = match views.len() {
            0 => "the plan has no steps".to_string(),
            most => format!("the steps of the plan are 1 to {most}"),
        };
        Fault::Usage(format!("{path}: --step {step}: {plan}"))
    })
}

/// What a picture is made from.
fn load(path: &OsStr) -> Result<(Document, Finding, Layout), Fault> {
    let document = Document::load(path)?;
    let finding =
        Finding::advised(&document, &Prices::default().of(&document)?).map_err(|rule| document.refused(rule))?;
    let layout = draw::layout(&document);
    Ok((document, finding, layout))
}

/// The picture or the page of a file.
fn drawn(path: &OsStr, call: &Call, options: Options) -> Result<String, Fault> {
    let (document, finding, layout) = load(path)?;
    let position = draw::examine_layout(&document, &finding, &layout);
    let draw = if call.has(&HTML) { draw::page } else { draw::picture };
    Ok(draw(&document, &finding, &layout, position.as_ref(), options))
}

/// Runs the command.
pub fn run(call: &Call) -> Result<Answer, Fault> {
    let options = options(call)?;
    let asked = [&HTML, &STEP, &STEPS].iter().filter(|flag| call.has(flag)).count();
    if asked > 1 {
        return Err(Fault::Usage("draw takes one of --html, --step and --steps".to_string()));
    }
    let files = files::of(call)?;
    let output = call.value(&OUTPUT).map(Path::new);
    let single = files.len() == 1 && !output.map_or(false, disk::is_folder);
    if call.has(&STEP) || call.has(&STEPS) {
        return match single {
            true => steps(&files[0].path, call, options),
            false => Err(Fault::Usage("--step and --steps draw one file".to_string())),
        };
    }
    if single {
        return one(call, &files[0].path, drawn(&files[0].path, call, options)?);
    }
    let usage = || Fault::Usage("several files are drawn into a folder: -o DIR".to_string());
    let folder = output.filter(|folder| *folder != Path::new("-")).ok_or_else(usage)?;
    let ending = if call.has(&HTML) { "html" } else { "svg" };
    let places = files::outputs(folder, &files, ending);
    let pairs: Vec<(&OsStr, &Path)> =
        files.iter().map(|found| found.path.as_os_str()).zip(places.iter().map(PathBuf::as_path)).collect();
    let results =
        parallel::map(&pairs, |(path, to)| drawn(path, call, options).and_then(|picture| write(to, &picture)));
    Ok(many(call, &pairs, &results))
}

/// The answer of one picture.
fn one(call: &Call, path: &OsStr, picture: String) -> Result<Answer, Fault> {
    let answer = Answer::deliver(call, picture.as_str(), Status::Well);
    if !call.has(&JSON) {
        return Ok(answer);
    }
    let item = match answer.to {
        Some(to) => {
            write(&to, &picture)?;
            object(path, Some(to.display().to_string()), None, None)
        }
        None => object(path, None, Some(picture), None),
    };
    Ok(Answer::json(call, Json::Object(vec![("pictures", Json::List(vec![item]))]), Status::Well))
}

/// The answer of several pictures: what was written, a line each, and what was not, told beside it.
fn many(call: &Call, pairs: &[(&OsStr, &Path)], results: &[Result<(), Fault>]) -> Answer {
    let status = results.iter().map(|done| done.as_ref().err().map_or(Status::Well, Fault::status)).max();
    let status = status.unwrap_or(Status::Well);
    if call.has(&JSON) {
        let item = |((path, to), done): (&(&OsStr, &Path), &Result<(), Fault>)| {
            object(path, done.is_ok().then(|| to.display().to_string()), None, done.as_ref().err())
        };
        let pictures = Json::List(pairs.iter().zip(results).map(item).collect());
        return Answer::json(call, Json::Object(vec![("pictures", pictures)]), status);
    }
    let written = pairs.iter().zip(results).filter(|(_, done)| done.is_ok());
    let out: String = written.map(|((_, to), _)| format!("{}\n", to.display())).collect();
    let faults = results.iter().filter_map(|done| done.as_ref().err()).flat_map(Fault::lines);
    Answer { notes: faults.map(|line| format!("pattern: {line}")).collect(), ..Answer::print(out, status) }
}

/// One picture for a program: where it was written, or itself, or why there is none.
fn object(path: &OsStr, picture: Option<String>, content: Option<String>, fault: Option<&Fault>) -> Json {
    Json::Object(vec![
        ("file", document::shown(path).into()),
        ("picture", Json::maybe(picture)),
        ("content", Json::maybe(content)),
        ("errors", fault.map_or(Json::List(Vec::new()), Fault::json)),
    ])
}

/// The picture of a step, or those of all steps in a folder.
fn steps(path: &OsStr, call: &Call, options: Options) -> Result<Answer, Fault> {
    let (document, finding, layout) = load(path)?;
    let views = draw::views(&document, &finding.steps);
    let picture = |view: &View| draw::step_picture(&document, &finding, &layout, view, options);
    if let Some(step) = call.value(&STEP) {
        return one(call, path, picture(chosen(&document, &views, step)?));
    }
    if call.value(&OUTPUT).is_some() {
        return Err(Fault::Usage("--steps writes into its folder; -o is for one picture".to_string()));
    }
    let folder = Path::new(call.value(&STEPS).unwrap_or_default());
    let places: Vec<PathBuf> = (1..=views.len()).map(|step| folder.join(format!("step-{step:02}.svg"))).collect();
    let pairs: Vec<(&OsStr, &Path)> = places.iter().map(|place| (path, place.as_path())).collect();
    // each is written, also where one before it was not
    let written = views.iter().zip(&places).map(|(view, place)| write(place, &picture(view)));
    written.fold(Ok(()), Result::and)?;
    Ok(many(call, &pairs, &places.iter().map(|_| Ok(())).collect::<Vec<_>>()))
}

/// Writes a picture, in a folder that is made if it is not there.
fn write(path: &Path, picture: &str) -> Result<(), Fault> {
    let folder = path.parent().unwrap_or(path);
    let fault = |path: &Path| {
        let path = path.display().to_string();
        move |error| Fault::File { path, error }
    };
    disk::make_folder(folder).map_err(fault(folder))?;
    disk::write(path, picture.as_bytes()).map_err(fault(path))
}
