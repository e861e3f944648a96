"""The lines of the language, of which each call has all of its own in lines.tbl."""

from written.lines import all_forms, forms_of

PATHS = ()


def differences(tables, _top):
    """The forms that no line has, and those that two have."""
    forms, found = forms_of(tables).values(), all_forms(tables)
    return [f"interface/lines.tbl: {form!r} stands there {found.count(form)} times, not once" for form in forms if found.count(form) != 1]
