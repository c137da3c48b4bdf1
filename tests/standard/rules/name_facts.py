"""`rule_facts()`, the text of proofs/RuleFacts.antt: what the prover computes from the rules for each name of a class."""
import re

from read_rules import SETS

COMPUTED = "unfolding run rules taken act in_scope"
THREE = "(%s, %s, %s)"
HEAD = '''-- What the rules do with each name of a class, computed by the prover; written by generate.py.
use Rattle.std.specs.Prelude.{◌≡◌, false, ◌∷◌, codes, refl}
use mathlib.Core.Path.{ap}
use Rattle.standard_rules.specs.Building.{act, in_found_mode, in_scope, run, taken, with_stack}
use Rattle.standard_rules.specs.PlainTrees.{%(classes)s, names_of}
use Rattle.standard_rules.specs.RuleWords.{InCaption, InCell, InColumnGroup, InHead, InRow, InTable, InTableBody}
use Rattle.standard_rules.specs.TreeRules.{headings, rules}
use Rattle.standard_rules.specs.TreeTokens.{is_among}
use Rattle.standard_tokens.specs.Tokens.{AChar}
use Rattle.standard_rules.proofs.FormSteps.{form_closes, form_opens}
use Rattle.standard_rules.proofs.RuleShapes.{Formatting, HoldsItems, IsBreak, IsForm, IsLeafIn, IsMarkedPart, IsPart, IsRawText, IsSource, IsTable, IsVoid, KeepsSpace, OpensBlock, OpensFormatting, OpensHeading, OpensItem, OpensPhrase, OpensPre, OpensRubyText, Ordinary, RunsIn, grown, open_of, with_one}
use Rattle.standard_rules.proofs.StackKeys.{Barless}
use Rattle.standard_rules.proofs.TreeLists.{Each, each_space}'''
NO_HEADING = "λ name. is_among name headings ≡ false"


def class_names(crate):
    """The names of each class, from the definition."""
    text = (crate / "specs" / "PlainTrees.antt").read_text()
    classes = {}
    for name, names in re.findall(r"^names_of (\w+) =(.*?)(?=\n\S|\n\n|\Z)", text, re.M | re.S):
        classes[name] = re.findall('codes "([^"]*)"', names) or SETS.get(names.strip(), [])
    return classes


def record(**fields):
    return "record { %s }" % "; ".join("%s = %s" % item for item in fields.items())


def three(proof):
    return THREE % (proof, proof, proof)


def rule_facts(crate):
    classes = class_names(crate)
    out = [HEAD % {"classes": ", ".join(c for c in classes if c not in ("AnInput", "Another"))}]

    def fact(name, claim, of, proof, opened=COMPUTED):
        names = classes[of]
        out.extend(["", "pub %s : Each (%s) (names_of %s)" % (name, claim, of)] + ([opened] if opened else []))
        out.append(name + " = " + "".join("(%s, " % proof for _ in names) + "tt" + ")" * len(names))

    closes = "λ b number attrs children o os. " + three("refl")
    ordinary = record(closes=closes, ends="refl", unswitched="refl", unlisted="(refl, refl)", passes="λ c m ms. refl")
    by_h, by_hk = three("rw h refl"), three("rw (h, k) refl")
    opens = {
        "block": ("ABlock", "OpensBlock", "λ attrs b h. " + by_h), "list": ("AList", "OpensBlock", "λ attrs b h. " + by_h),
        "description_list": ("ADescriptionList", "OpensBlock", "λ attrs b h. " + by_h),
        "paragraph": ("AParagraph", "OpensBlock", "λ attrs b h. " + by_h),
        "heading": ("AHeading", "OpensHeading", "λ attrs b h k. " + three("rw (h, k, act) refl")),
        "phrase": ("APhrase", "OpensPhrase", "λ attrs b h. " + three("rw (h, act) refl")),
        "ruby": ("ARuby", "OpensPhrase", "λ attrs b h. " + three("rw (h, act) refl")),
        "ruby_text": ("ARubyText", 'OpensRubyText (codes "ruby")', "λ attrs b number bs children o os. " + three("refl")),
        "item": ("AnItem", "OpensItem (names_of AnItem)", "λ attrs b h k. " + by_hk),
        "description": ("ADescription", "OpensItem (names_of ADescription)", "λ attrs b h k. " + by_hk),
        "pre": ("APre", "OpensPre", "λ attrs b h. " + by_h), "button": ("AButton", None, None),
    }
    for short, (of, claim, proof) in opens.items():
        if claim:
            fact(short + "_opens", claim, of, proof)
        fact(short + "_ordinary", "Ordinary", of, ordinary)
        if short != "heading":
            fact(short + "_no_heading", NO_HEADING, of, "refl", None)
        if short not in ("paragraph", "button"):
            fact(short + "_barless", "Barless", of, record(no_p="refl", no_a="refl", no_button="refl"), None)
    fact("formatting_opens", "OpensFormatting", "AFormatting", "λ attrs b h. " + three("rw (h, act) refl"))
    for short, of in (("formatting", "AFormatting"), ("anchor", "AnAnchor")):
        fact(short + "_is", "Formatting", of, record(closes="λ b c h. " + by_h, ends="refl", unswitched="refl", listed="(refl, refl)", passes="λ c m ms. refl"))
        fact(short + "_no_heading", NO_HEADING, of, "refl", None)
    fact("formatting_barless", "Barless", "AFormatting", record(no_p="refl", no_a="refl", no_button="refl"), None)
    fact("list_holds", "HoldsItems (names_of AnItem)", "AList", "λ number attrs children os. refl", None)
    fact("description_list_holds", "HoldsItems (names_of ADescription)", "ADescriptionList", "λ number attrs children os. refl", None)
    fact("void_is", "IsVoid", "AVoid", record(made="λ attrs b o os h. " + three("rw (h, act) refl"), ends="refl", unswitched="refl"))
    fact("break_is", "IsBreak", "ABreak", record(made="λ attrs b o os h. " + by_h, ends="refl", unswitched="refl"))
    fact("source_is", "IsSource", "ASource", record(made="λ attrs b o os. " + three("refl"), ends="refl", unswitched="refl"))
    fact("raw_text_is", "IsRawText", "ARawText", record(
        opens="λ attrs b. " + three("refl"), opens_in_head="λ attrs b. refl", closes="λ b number attrs children o os. refl", ends="refl"))
    leaf = record(made="λ attrs b o os. refl", ends="refl", unswitched="refl")
    fact("metadata_is", "IsLeafIn InHead", "AMetadata", leaf)
    fact("column_is", "IsLeafIn InColumnGroup", "AColumn", leaf)
    part = dict(opens="λ b attrs bs n children o os. refl", closes="λ b attrs n children o os. refl", ends="refl", unswitched="refl")
    plain = record(**part, unlisted="(refl, refl)")
    marked = record(**part, gives="λ c m ms. refl", marker="refl", unlisted="refl")
    fact("caption_is", 'IsMarkedPart InTable (codes "table") InCaption', "ACaption", marked)
    fact("cell_is", 'IsMarkedPart InRow (codes "tr") InCell', "ACell", marked)
    fact("column_group_is", 'IsPart InTable (codes "table") InColumnGroup', "AColumnGroup", plain)
    fact("row_group_is", 'IsPart InTable (codes "table") InTableBody', "ARowGroup", plain)
    fact("row_is", 'λ parent. IsPart InTableBody parent InRow (codes "tr")', "ARowGroup", plain)
    fact("table_is", "IsTable", "ATable", record(
        opens="λ attrs b h. " + by_h, ends="refl", unswitched="refl", unlisted="(refl, refl)",
        closes="λ b attrs n children o os mode h. ap (in_found_mode (with_stack b (grown o (codes \"table\") attrs children ∷ os))) h"))
    fact("form_is", "IsForm", "AForm", record(
        opens="form_opens", closes="form_closes", ends="refl", unswitched="refl", unlisted="(refl, refl)", passes="λ c m ms. refl"), None)
    for short, of in (("table", "ATable"), ("caption", "ACaption"), ("column_group", "AColumnGroup"), ("row_group", "ARowGroup"), ("row", "ARow"),
                      ("cell", "ACell"), ("form", "AForm")):
        fact(short + "_barless", "Barless", of, record(no_p="refl", no_a="refl", no_button="refl"), None)
    for short, of in (("caption", "ACaption"), ("cell", "ACell"), ("form", "AForm")):
        fact(short + "_no_heading", NO_HEADING, of, "refl", None)
    for short, mode, of in (("table", "InTable", "ATable"), ("column_group", "InColumnGroup", "AColumnGroup"),
                            ("row_group", "InTableBody", "ARowGroup"), ("row", "InRow", "ARow")):
        space = "λ b n attrs children os c h. each_space (λ c. %s) %s c h"
        goal = ("RunsIn %s (AChar c) (with_stack b (open_of n (codes \"%%s\") attrs children ∷ os)) "
                "(with_stack b (with_one (open_of n (codes \"%%s\") attrs children) c ∷ os))" % mode)
        proofs = "(%s, " * len(classes[of]) % tuple(space % (goal % (name, name), "refl " * 4 + "refl") for name in classes[of])
        out.extend(["", "pub %s_space : Each (KeepsSpace %s) (names_of %s)" % (short, mode, of), COMPUTED,
                    "%s_space = %stt%s" % (short, proofs, ")" * len(classes[of]))])
    return "\n".join(out) + "\n"
