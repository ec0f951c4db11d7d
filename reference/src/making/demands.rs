//! How often a row of cases has to come to each answer.

use super::census::Census;

/// Labels of a census that are due so many times each.
const AT_LEAST: &[(usize, &[&str])] = &[
    (
        5,
        &[
            "refused  1, source layout",
            "refused  1, target layout",
            "refused  1, drawing",
            "refused  2, source layout",
            "refused  3, source layout",
            "refused  3, target layout",
            "refused  3, drawing",
            "refused  4 rows, source layout",
            "refused  4 columns, source layout",
            "refused  4 rows, target layout",
            "refused  4 columns, target layout",
            "refused  5, source layout",
            "refused  5, target layout",
            "refused  6 source limits, drawing",
            "refused  6 source exceeded, drawing",
            "refused  6 target limits, drawing",
            "refused  6 target exceeded, drawing",
            "refused  8, proposal",
            "refused  9 naming, proposal",
            "refused  9 sums, proposal",
            "refused  9 bill, proposal",
            "refused 16, sheet",
            "refused 17, tariff",
            "refused 17, surcharge",
        ],
    ),
    (
        3,
        &[
            "mistake: not UTF-8",
            "mistake: no such item",
            "mistake: no such item: target",
            "mistake: no such item: source",
            "mistake: no such item: target and a word",
            "mistake: no such item: source and a word",
            "mistake: once too often",
            "mistake: not a number of  8 bits",
            "mistake: not a number of 16 bits",
            "mistake: not a number of 32 bits",
            "mistake: not a number of 64 bits",
            "mistake: one number",
            "mistake: two numbers",
            "mistake: one or two numbers",
            "mistake: one letter",
            "mistake: word or pair",
            "mistake: plain or table",
            "mistake: missing",
            "mistake: one number for a word",
            "mistake: two numbers for a pair",
        ],
    ),
    (30, &["taken", "planned", "planned: saves", "echo: legal", "echo: refused 16"]),
    (
        15,
        &[
            "drawn: operation N",
            "drawn: operation T",
            "drawn: operation C",
            "drawn: order R",
            "drawn: order C",
        ],
    ),
    (10, &["drawn: words, alpha one", "drawn: words, alpha other", "drawn: pairs, alpha one"]),
    (10, &["drawn: pairs, alpha other", "drawn: plain, 0 surcharges", "drawn: table, 0 surcharges"]),
    (
        5,
        &[
            "drawn: plain, 1 surcharges",
            "drawn: plain, 2 surcharges",
            "drawn: side of 1024",
            "drawn: 33 splits",
        ],
    ),
    (3, &["drawn: table, 1 surcharges", "drawn: table, 2 surcharges"]),
];

/// What a census has too rarely.
pub fn shortages(census: &Census) -> Vec<String> {
    let boards = (1..=16).map(|boards| (1, format!("drawn: {boards:2} boards")));
    let labels = |(least, labels): &(usize, &[&str])| {
        let least = *least;
        labels.iter().map(|label| (least, label.to_string())).collect::<Vec<_>>()
    };
    let due = AT_LEAST.iter().flat_map(labels).chain(boards);
    let short = due.filter(|(least, label)| census.count(label) < *least);
    let mut short: Vec<_> = short.map(|(least, label)| format!("fewer than {least} of: {label}")).collect();
    if 2 * census.declined < census.jobs {
        short.push("fewer than half of the plans and checks are declined".to_string());
    }
    short
}
