//! What the times are of: the processor, and the compiler of the plain side.

/// One line of both, the processor by what Linux tells of it.
pub fn line() -> String {
    let told = std::fs::read_to_string("/proc/cpuinfo").unwrap_or_default();
    format!("{}; {}", processor(&told), env!("RUSTC_VERSION"))
}

/// What is told of the first core, and how many cores there are.
fn processor(told: &str) -> String {
    let fields: Vec<(&str, &str)> = told.lines().filter_map(|line| line.split_once(':')).collect();
    let field =
        |wanted| fields.iter().find(|(name, _)| name.trim() == wanted).map_or("unknown", |(_, told)| told.trim());
    let cores = match fields.iter().filter(|(name, _)| name.trim() == "processor").count() {
        0 => "unknown".to_string(),
        count => count.to_string(),
    };
    format!(
        "processor {}, family {}, model {}, stepping {}, MHz {}, cores {cores}",
        field("model name"),
        field("cpu family"),
        field("model"),
        field("stepping"),
        field("cpu MHz")
    )
}
