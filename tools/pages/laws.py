"""The laws of docs/RATTLE.md, as in the sources."""
import re
import sys
import textwrap

from .contracts import clauses_of, statement
from .items import items_of, paths, read

# The page of the laws, the heading of its section, and the laws by what a caller wants to show with them, the first needed first.
PAGE, LAWS = 'docs/RATTLE.md', '## Laws and lemmas\n'
GROUPS = {
    'A text or a literal has one kind, value and suffix': """
        a_text_has_one_reading readings_of_a_text_are_one a_lit_has_one_value a_lit_has_its_parts kind_and_token_make_the_literal
        a_found_literal_reads an_integer_has_one_base a_float_has_one_of_each_part a_minus_tells_the_sign""",
    'A text has one list of tokens, token trees or literals': """
        one_list one_error never_both a_text_lexes_or_has_an_error a_text_is_one_list strings_have_one_list_of_values one_lexing
        holds_lexemes literals_dont_begin_with_a_minus""",
    'A cursor has one next token, literal and position': """
        a_cursor_has_one_next_literal a_cursor_has_one_next_token a_cursor_has_one_next_position a_cursor_stays_lexed
        a_source_cursor_has_one_next_token a_source_cursor_has_one_next_position a_taken_literal_is_read
        a_taken_literal_is_a_next_literal""",
    'Token trees begin with one literal, character or group': """
        a_front_is_one a_lit_front_is_one a_peek_tells_a_literal a_peek_tells_a_bool a_peek_tells_the_kind
        a_peeked_mark_is_at_the_front a_mark_has_one_rest joint_marks_have_one_rest a_group_has_one_inside a_group_is_no_mark
        a_group_is_no_front""",
    'A parser returns what is there, its steps are one step, and it ends': """
        a_parser_of_a_kind_is_exact a_parser_of_lit_is_exact a_rest_of_a_rest_is_a_rest a_literal_leaves_fewer_trees
        a_step_is_lighter a_mark_is_lighter an_inside_is_lighter""",
    'A setting has its value, and its error is at the value': """
        a_string_is_parsed_from_its_text a_bool_is_parsed_from_its_text the_text_tells_the_kind the_text_tells_the_suffix
        a_malformed_literal_has_no_reading only_an_allocation_failure_rejects_a_string a_bool_is_accepted
        a_rejected_string_is_at_the_value a_rejected_bool_is_at_the_value a_rejected_unsigned_is_at_the_value
        known_names_are_the_settings""",
    'What was written is read': """
        a_written_value_reads a_written_value_is_strict a_printed_list_is_read a_str_list_is_read a_str_list_is_printed
        printed_literals_lex_to_their_trees reprinted_literals_lex_to_themselves""",
    'A number or a raw string is written in one form': """
        a_numeral_represents_its_number a_numeral_has_digits_of_its_base a_numeral_has_no_zero_in_front few_digits_are_not_grouped
        enough_digits_are_grouped raw_strings_of_one_value_contain_one_text strict_digits_represent_their_number
        strict_digits_are_decimal no_zero_leads_strict_digits zero_is_one_strict_digit""",
    'A rewritten literal is the same literal': """
        a_rewritten_literal_is_the_same a_rewritten_literal_is_the_same_except_float_zero the_same_literal_reads_alike
        the_same_literal_is_strict_alike a_rewritten_text_stays a_literal_has_one_text_in_a_style no_rule_changes_nothing""",
    'A rewritten source has the same tokens': """
        keeps_each_literal keeps_the_clean_source keeps_the_whole_source has_one_text keeps_the_edited_source keeps_the_tokens_of_edits
        keeps_the_source_around_a_restyled_literal keeps_the_tokens_around_a_restyled_literal keeps_the_source keeps_the_tokens
        keeps_its_ends stays_around stays_before_quote keeps_the_tokens_unraw""",
    "If a text isn't a literal, there is one reason": """
        a_text_has_one_flaw a_text_has_one_signed_flaw a_text_has_one_value_flaw a_text_in_a_file_has_one_flaw
        a_text_in_a_file_has_one_signed_flaw a_text_in_a_file_has_one_value_flaw a_text_in_a_file_has_one_signed_value_flaw
        a_token_reads_or_is_past_the_limit an_unread_token_is_past_the_limit a_bad_quote_has_no_reading a_bad_quote_is_no_token""",
    'An invalid literal has these errors, and no others': """
        the_first_flaw_explains_the_text the_rest_has_one_next_flaw a_token_has_no_flaw a_text_begins_as_one_kind
        a_token_begins_as_its_kind an_error_excludes_a_type a_literal_has_one_type_error""",
    'A byte of a value has its range in the text': """
        segments_make_the_literal a_segment_has_one_value the_places_of_bytes_are_in_order the_offsets_of_bytes_are_in_the_body
        offsets_invert_the_places""",
    'The grammars of `syn` and of Rust agree': """
        a_text_is_strict_in_one_way strict_readings_of_a_text_are_one both_grammars_agree a_reading_is_the_strict_one
        a_strict_text_reads a_strict_number_reads_after_a_minus a_strict_text_has_no_return the_truth_words_are_strict
        bytes_without_returns_are_strict utf8_decoding_keeps_a_leading_minus""",
}


def paragraph(docs):
    """Returns the first paragraph of a documentation, as comment lines."""
    return [f'-- {line}' for line in textwrap.wrap(re.sub(r'\[(`[^`]*`)\]\([^)]*\)', r'\1', ' '.join(docs.strip().split('\n\n')[0].split())), 110)]


def comment_of(crate, name):
    """Returns the comment above a definition of a crate, as its lines."""
    for path in paths(f'crates/{crate}/specs/*.antt'):
        found = re.search(rf'(?m)((?:^-- .*\n)+)^(?:unfoldable |abbrev |pub )+{name}\b', read(path))
        if found:
            return found[1].rstrip('\n').split('\n')
    return []


def all_laws():
    """Returns the laws of all crates by their lemmas: for each the module of the lemma, and the lines that state it."""
    modules = {name: path.removeprefix('crates/').removesuffix('.antt').replace('/', '.')
               for path in paths('crates/*/proofs/*Theorems.antt') for name in re.findall(r'(?m)^pub ([\w-]+) :', read(path))}
    found = {}
    for path in paths('crates/*/src/laws.rt'):
        for item in items_of(path):
            names = [said for _, _, said in clauses_of(path, item)]
            for name in names:
                comment = paragraph(item.docs) if len(names) == 1 else comment_of(path.split('/')[1], name.split(' ')[0])
                # A lemma has the name of the statement that it proves.
                lemma = re.sub(r'(?<!^)(?=[A-Z])', '_', name.split(' ')[0]).lower()
                if statement(name):
                    found[lemma] = modules[lemma], [*comment, f'{lemma} : {name} = {statement(name)}']
    return found


def laws_section(title, names, laws):
    uses, lines = {}, []
    for name in names:
        uses.setdefault(laws[name][0], []).append(name)
        lines += laws[name][1]
    used = [f'use Rattle.{module}.{{{", ".join(sorted(those))}}}' for module, those in uses.items()]
    return '\n'.join([f'### {title}\n\n```text', *used, '', *lines, '```\n'])


def with_laws(page):
    """Returns the page of the laws, with its last section as in the sources."""
    front, _, section_now = page.partition(LAWS)
    introduction = re.split(r'(?m)^### ', section_now, maxsplit=1)[0]
    laws, groups = all_laws(), {title: names.split() for title, names in GROUPS.items()}
    if others := sorted(laws.keys() ^ {name for names in groups.values() for name in names}):
        sys.exit(f'tools/pages/laws.py: {", ".join(others)}: a law without a group, or a name that is no law')
    return front + LAWS + introduction.rstrip('\n') + '\n\n' + '\n'.join(laws_section(it, names, laws) for it, names in groups.items())
