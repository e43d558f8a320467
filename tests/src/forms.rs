//! What has come up in a run, told apart by the form of the sheet.

use model::job::Form;
use model::reader::stated_form;
use model::refusal::CLASS_IN_TWO_CLASSES;

/// The kind on a sheet that states this form; of version 1 it is called by its own name.
pub fn in_form(form: Form, kind: &str) -> String {
    match form {
        Form::First => kind.to_string(),
        Form::Second { .. } => format!("{form}: {kind}"),
    }
}

/// The kind on a sheet, whatever its header states.
pub fn on_sheet(sheet: &[u8], kind: &str) -> String {
    stated_form(sheet).map_or_else(|| format!("no form: {kind}"), |form| in_form(form, kind))
}

/// Whether a sheet of the form can be refused so: with one class level no class lies in another.
pub fn can_refuse(form: Form, number: u32) -> bool {
    number != CLASS_IN_TWO_CLASSES || form.class_levels() > 1
}

/// What is wanted on sheets of every form.
pub fn wanted(kinds: impl Fn(Form) -> Vec<String>) -> Vec<String> {
    let of_form = |form| kinds(form).into_iter().map(move |kind| in_form(form, &kind));
    Form::ALL.into_iter().flat_map(of_form).collect()
}

#[cfg(test)]
mod tests {
    use super::*;
    use model::builder::{sheet_w, sheet_w_in};

    #[test]
    fn a_kind_is_told_by_the_header_of_its_sheet() {
        let told = |sheet: &[u8]| on_sheet(sheet, "refusal  3");
        assert_eq!(told(&sheet_w().cut(24).bytes), "refusal  3");
        assert_eq!(told(&sheet_w_in(Form::Second { class_levels: 1 }).bytes), "version 2, 1 class level: refusal  3");
        assert_eq!(told(&sheet_w_in(Form::Second { class_levels: 3 }).bytes), "version 2, 3 class levels: refusal  3");
        assert_eq!(told(&sheet_w().byte(0, 12, 1).bytes), "no form: refusal  3");
        assert_eq!(told(&[]), "no form: refusal  3");
    }

    #[test]
    fn what_is_wanted_is_wanted_in_every_form() {
        let kinds = |form| (10..=11).filter(|&number| can_refuse(form, number)).map(|n| n.to_string()).collect();
        assert_eq!(wanted(kinds).len(), 4 * 2 - 1);
    }
}
