"""Plays conversations with redlsp and compares what it says with what is wanted: `python3 bench/edit/cases.py [NAME..]`.

The program is that of `crates/redlsp/out/redlsp`, or the one that REDLSP names. What is wanted was written by hand, from the protocol
and from docs/EDITING.md. Ends with 1 where an answer is another one.
"""
import os
import subprocess
import sys
import tempfile
import time

from talk import PROGRAM, Editor, between, converse, diagnostics, framed, said

APPLICATION = """\
{:Application ("~/a" 0)
    :OnStartUp ( :TransitionTo (("~/s" 0)) )
    :Items (
        {:IntegerVar 1 :OrigValue 0 :Shared true}
    )
}
"""
SCENE = """\
{:Scene ("~/s" 0)
    :InputEventReg 3
    :Items (
        {:Rectangle 1 :OrigBoxSize 24 32 :OrigRefFillColour '=FF=00=00=00'}
        {:Link 2 :EventSource 0 :EventType UserInput :EventData 100
            :LinkEffect (
                :SetPosition (1 24 64)
                :Add (("~/a" 1) 1)
                :TestVariable (("~/a" 1) 1 :GInteger 5)
            )
        }
        {:Link 3 :EventSource ("~/a" 1) :EventType TestEvent :EventData true
            :LinkEffect ( :SetBoxSize (1 48 64) )
        }
    )
}
"""
CASES = {}


def case(function):
    CASES[function.__name__.replace("_", " ")] = function
    return function


def service(folder, **more):
    """Writes the application, the scene and further files into a folder of their own."""
    path = os.path.join(folder, "service")
    os.makedirs(path)
    for name, text in {"a": APPLICATION, "s": SCENE, **more}.items():
        with open(os.path.join(path, name), "w", newline="") as file:
            file.write(text)
    return path


def place_of(text, words, behind=0):
    """Returns the line and the character at which these words stand first in a text."""
    before = text[: text.index(words) + behind]
    return before.count("\n"), len(before) - before.rfind("\n") - 1


def range_of(text, words, shown=None):
    line, character = place_of(text, words)
    return between((line, character), (line, character + len(shown or words)))


def marks(found):
    """Returns of diagnostics the line, the character, how grave it is, and the rule."""
    return [(d["range"]["start"]["line"], d["range"]["start"]["character"], d["severity"], d["code"]) for d in found]


def codes(answer):
    return answer["code"] if answer else answer


# FRAMES AND THE COURSE OF A CONVERSATION


@case
def begins_and_ends(folder):
    editor = Editor(service(folder))
    editor.end()
    answers, notices, status = editor.play()
    return (sorted(answers), answers[2], notices, status), ([1, 2], None, [], 0)


@case
def counts_in_UTF_16_where_nothing_else_is_offered(folder):
    editor = Editor(service(folder))
    answers, _, _ = editor.play()
    return answers[1]["capabilities"]["positionEncoding"], "utf-16"


@case
def counts_in_bytes_where_that_is_offered(folder):
    editor = Editor(service(folder), encodings=("utf-16", "utf-8"))
    answers, _, _ = editor.play()
    return answers[1]["capabilities"]["positionEncoding"], "utf-8"


@case
def an_exit_that_was_not_asked_for(folder):
    editor = Editor(service(folder))
    editor.tell("exit", None)
    return editor.play()[2], 1


@case
def an_input_that_ends(folder):
    return Editor(service(folder)).play()[2], 1


@case
def a_request_before_all(folder):
    editor = Editor(service(folder), begins=False)
    editor.about("hover", "s", (0, 0))
    return codes(editor.play()[0][1]), -32002


@case
def initialized_twice(folder):
    editor = Editor(service(folder))
    editor.ask("initialize", {"capabilities": {}})
    return codes(editor.play()[0][2]), -32600


@case
def a_request_behind_shutdown(folder):
    editor = Editor(service(folder))
    editor.ask("shutdown", None)
    editor.about("hover", "s", (0, 0))
    return codes(editor.play()[0][3]), -32600


@case
def an_unknown_request_and_an_unknown_notice(folder):
    editor = Editor(service(folder))
    editor.tell("workspace/nonsense", {})
    editor.tell("$/cancelRequest", {"id": 7})
    editor.ask("textDocument/nonsense", {})
    answers, notices, _ = editor.play()
    return (codes(answers[2]), notices), (-32601, [])


@case
def a_message_that_is_no_JSON(folder):
    editor = Editor(service(folder))
    editor.sent.append(framed(b'{"jsonrpc": '))
    editor.ask("shutdown", None)
    answers, _, _ = editor.play()
    return (codes(answers[None]), 2 in answers), (-32700, True)


@case
def a_message_that_asks_and_tells_nothing(folder):
    editor = Editor(service(folder))
    editor.sent.append(framed(b"[1]"))
    return codes(editor.play()[0][None]), -32600


@case
def an_answer_to_nothing(folder):
    editor = Editor(service(folder))
    editor.sent.append(framed({"jsonrpc": "2.0", "id": 1, "result": None}))
    return sorted(editor.play()[0]), [1]


@case
def a_message_that_is_too_long(folder):
    editor = Editor(service(folder))
    editor.sent.append(framed(b" " * 4194305))
    editor.ask("shutdown", None)
    answers, _, _ = editor.play()
    return (codes(answers[None]), answers[2]), (-32600, None)


@case
def a_message_as_long_as_any(folder):
    editor = Editor(service(folder))
    editor.sent.append(framed(b'{"jsonrpc":"2.0","id":"x","method":"y"}'.ljust(4194304)))
    return codes(editor.play()[0]["x"]), -32601


@case
def no_header(folder):
    return converse(b"GET / HTTP/1.1\r\n\r\n", folder), ([], 2)


@case
def a_header_with_more_fields(folder):
    body = b'{"jsonrpc":"2.0","id":1,"method":"shutdown"}'
    head = b"content-type: x\r\nCONTENT-LENGTH:%d\r\n\r\n" % len(body)
    answers, _ = converse(head + body, folder)
    return codes(answers[0]["error"]), -32002


@case
def frames_that_come_in_pieces(folder):
    editor = Editor(service(folder))
    editor.end()
    data = b"".join(editor.sent)
    with subprocess.Popen([PROGRAM], stdin=subprocess.PIPE, stdout=subprocess.PIPE) as run:
        for start in range(0, len(data), 37):
            run.stdin.write(data[start : start + 37])
            run.stdin.flush()
            time.sleep(0.002)
        run.stdin.close()
        messages = said(run.stdout.read())
    return ([m["id"] for m in messages], run.returncode), ([1, 2], 0)


# WHAT IS FOUND


def told(editor):
    """Returns what was told last of each file."""
    return {name: marks(found) for name, found in diagnostics(editor.play()[1], editor.folder).items()}


@case
def nothing_is_found(folder):
    editor = Editor(service(folder))
    editor.open("s", SCENE)
    return told(editor), {"s": []}


@case
def a_keyword_that_no_table_has(folder):
    editor = Editor(service(folder))
    editor.open("s", SCENE.replace(":EventData true", ":EventDat true"))
    line, character = place_of(SCENE, ":EventData true")
    return told(editor), {"s": [(line, character, 1, "22")]}


@case
def a_mistake_in_another_file(folder):
    editor = Editor(service(folder))
    editor.open("s", SCENE)
    editor.open("a", APPLICATION.replace(":OrigValue 0", ":OrigValu 0"))
    line, character = place_of(APPLICATION, ":OrigValue 0")
    return told(editor), {"s": [], "a": [(line, character, 1, "22")]}


@case
def a_mistake_in_a_file_that_is_closed(folder):
    editor = Editor(service(folder, a=APPLICATION.replace(":OrigValue 0", ":OrigValu 0")))
    editor.open("s", SCENE)
    line, character = place_of(APPLICATION, ":OrigValue 0")
    return told(editor), {"s": [], "a": [(line, character, 1, "22")]}


@case
def a_refusal_is_told_where_the_value_stands(folder):
    editor = Editor(service(folder))
    text = SCENE.replace(":SetBoxSize (1 48 64)", ":SetBoxSize (9 48 64)")
    editor.open("s", text)
    found = diagnostics(editor.play()[1], editor.folder)["s"]
    return (marks(found), found[0]["range"]), ([(*place_of(text, "9 48 64"), 1, "V1")], range_of(text, "9 48 64", "9"))


@case
def a_note_is_told_as_information(folder):
    editor = Editor(service(folder))
    text = SCENE.replace(":LinkEffect ( :SetBoxSize (1 48 64) )", ":LinkEffect ( )")
    editor.open("s", text)
    return [mark[2:] for mark in told(editor)["s"]], [(3, "no-actions")]


@case
def a_mistake_goes_with_its_change(folder):
    editor = Editor(service(folder))
    editor.open("s", SCENE)
    line, character = place_of(SCENE, "TestEvent")
    editor.change("s", ((line, character), (line, character + 4), "Tast"))
    editor.change("s", ((line, character + 1), (line, character + 2), "e"))
    return told(editor), {"s": []}


@case
def a_change_within_a_token(folder):
    editor = Editor(service(folder))
    editor.open("s", SCENE)
    line, character = place_of(SCENE, "TestEvent")
    editor.change("s", ((line, character + 3), (line, character + 6), "xx"))
    return told(editor), {"s": [(line, character, 1, "22")]}


@case
def several_changes_in_one_message(folder):
    editor = Editor(service(folder))
    editor.open("s", "")
    editor.change("s", SCENE, ((0, 1), (0, 7), ":Secne"), ((0, 3), (0, 5), "ce"))
    # while the scene is empty, what leads to it is wrong
    return told(editor), {"s": [], "a": []}


@case
def a_change_inside_a_surrogate_pair(folder):
    editor = Editor(service(folder))
    editor.open("s", "// \U0001d11e\n" + SCENE)
    # the first place is the front of the character, which stays, and the second is behind it
    editor.change("s", ((0, 4), (0, 4), "x"))
    editor.change("s", ((0, 6), (0, 6), "\n"))
    number = editor.about("hover", "s", (2, 3))
    answers, notices, _ = editor.play()
    found = {name: marks(one) for name, one in diagnostics(notices, editor.folder).items()}
    return (found, answers[number]["range"]), ({"s": []}, between((2, 1), (2, 7)))


@case
def places_behind_the_end(folder):
    editor = Editor(service(folder))
    editor.open("s", SCENE)
    editor.change("s", ((900, 0), (901, 5), "// the end"), ((0, 900), (0, 901), " // the first"))
    editor.about("documentSymbol", "s")
    answers, _, _ = editor.play()
    return len(answers[2]), 4


@case
def lines_that_end_with_two_bytes(folder):
    text = SCENE.replace("\n", "\r\n")
    editor = Editor(service(folder, s=text))
    editor.open("s", text)
    line, character = place_of(SCENE, "TestEvent")
    editor.change("s", ((line, character), (line, character + 4), "Tast"))
    return told(editor), {"s": [(line, character, 1, "22")]}


@case
def what_is_closed_is_what_lies_on_the_disk(folder):
    editor = Editor(service(folder))
    editor.open("s", "{:Scene")
    editor.close("s")
    return told(editor), {"s": []}


@case
def a_file_that_is_not_on_the_disk(folder):
    path = service(folder)
    os.remove(os.path.join(path, "s"))
    editor = Editor(path)
    editor.open("s", SCENE)
    editor.close("s")
    editor.open("a", APPLICATION)
    found = told(editor)
    return (found["s"], [mark[2] for mark in found["a"]]), ([], [1])


@case
def two_services(folder):
    first = service(folder)
    second = service(os.path.join(folder, "other"))
    editor = Editor(folder)
    editor.open("service/s", SCENE.replace("TestEvent", "TastEvent"))
    editor.open("other/service/s", SCENE)
    line, character = place_of(SCENE, "TestEvent")
    wanted = {"service/s": [(line, character, 1, "22")], "other/service/s": []}
    return (told(editor), first != second), (wanted, True)


@case
def files_that_change_on_the_disk(folder):
    path = service(folder, s=SCENE.replace("TestEvent", "TastEvent"))
    editor = Editor(path)
    editor.tell("workspace/didChangeWatchedFiles", {"changes": [{"uri": editor.uri("s"), "type": 2}]})
    line, character = place_of(SCENE, "TestEvent")
    return told(editor), {"s": [(line, character, 1, "22")]}


@case
def a_folder_with_a_space_in_its_name(folder):
    path = service(os.path.join(folder, "my folder"))
    editor = Editor(path.replace(" ", "%20"))
    editor.folder = path.replace(" ", "%20")
    editor.open("s", SCENE.replace("TestEvent", "TastEvent"))
    messages, _ = converse(b"".join(editor.sent), folder)
    line, character = place_of(SCENE, "TestEvent")
    found = {name: marks(one) for name, one in diagnostics([m for m in messages if "method" in m], editor.folder).items()}
    return found, {"s": [(line, character, 1, "22")]}


@case
def a_file_of_no_service(folder):
    editor = Editor(folder)
    editor.open("s", SCENE.replace("TestEvent", "TastEvent"))
    line, character = place_of(SCENE, "TestEvent")
    return told(editor)["s"], [(line, character, 1, "22")]


# QUESTIONS


def asked(folder, *about, text=SCENE, **more):
    """Returns the answer to one question about the scene."""
    editor = Editor(service(folder))
    editor.open("s", text)
    number = editor.about(about[0], "s", *about[1:], **more)
    return editor.play()[0][number], editor


def hovered(folder, words, behind=1):
    answer, _ = asked(folder, "hover", place_of(SCENE, words, behind))
    return answer and answer["contents"]["value"]


@case
def hover_on_an_action(folder):
    return hovered(folder, ":SetPosition"), "**SetPosition**: moves its box there\n\n    :SetPosition (target number number)"


@case
def hover_on_an_attribute(folder):
    wanted = "**OrigBoxSize**: how wide and how high its box is at first\n\nIts value is two numbers from 0"
    return hovered(folder, ":OrigBoxSize"), wanted


@case
def hover_on_a_class(folder):
    return hovered(folder, ":Link"), "**Link**: does its effect whenever it hears its event"


@case
def hover_on_a_type_of_events(folder):
    return hovered(folder, "UserInput"), "**UserInput**: a key was pressed; its data is the number of the key"


@case
def hover_on_a_colour(folder):
    return hovered(folder, "'=FF"), "red 255, green 0, blue 0, opaque"


@case
def hover_on_an_object_of_another_group(folder):
    wanted = (
        "**IntegerVar 1** of a\n\n```\n{:IntegerVar 1 :OrigValue 0 :Shared true}\n```\n\n"
        "Its number stands in a (1), s (3)"
    )
    return hovered(folder, '"~/a" 1', 6), wanted


@case
def hover_on_nothing(folder):
    return hovered(folder, "InputEventReg 3", 15), None


@case
def definition_in_the_file(folder):
    answer, editor = asked(folder, "definition", place_of(SCENE, "(1 24 64)", 1))
    line, character = place_of(SCENE, "Rectangle 1", 10)
    return answer, {"uri": editor.uri("s"), "range": between((line, character), (line, character + 1))}


@case
def definition_in_another_file(folder):
    answer, editor = asked(folder, "definition", place_of(SCENE, '"~/a" 1', 6))
    line, character = place_of(APPLICATION, "IntegerVar 1", 11)
    return answer, {"uri": editor.uri("a"), "range": between((line, character), (line, character + 1))}


@case
def definition_of_a_group(folder):
    answer, editor = asked(folder, "definition", place_of(SCENE, '"~/a" 1', 2))
    line, character = place_of(APPLICATION, '"~/a" 0', 6)
    return answer, {"uri": editor.uri("a"), "range": between((line, character), (line, character + 1))}


@case
def definition_of_nothing(folder):
    return asked(folder, "definition", (0, 2))[0], None


@case
def references_with_the_definition(folder):
    answer, editor = asked(folder, "references", place_of(SCENE, '"~/a" 1', 6), context={"includeDeclaration": True})
    return [one["uri"] for one in answer], [editor.uri("a")] + 3 * [editor.uri("s")]


@case
def references_without_the_definition(folder):
    answer, editor = asked(folder, "references", place_of(SCENE, '"~/a" 1', 6), context={"includeDeclaration": False})
    return [one["uri"] for one in answer], 3 * [editor.uri("s")]


@case
def a_new_number_in_all_files(folder):
    answer, editor = asked(folder, "rename", place_of(SCENE, '"~/a" 1', 6), newName="77")
    changes = answer["changes"]
    return {uri: len(edits) for uri, edits in changes.items()}, {editor.uri("a"): 1, editor.uri("s"): 3}


@case
def a_new_number_leaves_others_alone(folder):
    answer, editor = asked(folder, "rename", place_of(SCENE, "Rectangle 1", 10), newName="77")
    edits = answer["changes"][editor.uri("s")]
    places = [place_of(SCENE, "Rectangle 1", 10), place_of(SCENE, "(1 24 64)", 1), place_of(SCENE, "(1 48 64)", 1)]
    wanted = [{"newText": "77", "range": between((l, c), (l, c + 1))} for l, c in places]
    return (list(answer["changes"]), edits), ([editor.uri("s")], wanted)


@case
def a_number_that_is_taken(folder):
    return codes(asked(folder, "rename", place_of(SCENE, "Rectangle 1", 10), newName="2")[0]), -32803


@case
def a_new_number_that_is_none(folder):
    return codes(asked(folder, "rename", place_of(SCENE, "Rectangle 1", 10), newName="x")[0]), -32602


@case
def a_group_keeps_its_number(folder):
    return codes(asked(folder, "rename", place_of(SCENE, '"~/s" 0', 6), newName="7")[0]), -32803


@case
def what_can_get_a_new_number(folder):
    line, character = place_of(SCENE, "Rectangle 1", 10)
    wanted = between((line, character), (line, character + 1))
    return asked(folder, "prepareRename", (line, character))[0], wanted


@case
def what_can_get_none(folder):
    return asked(folder, "prepareRename", place_of(SCENE, "InputEventReg 3", 15))[0], None


def offered(folder, words, behind, text=SCENE):
    return [item["label"] for item in asked(folder, "completion", place_of(text, words, behind), text=text)[0]]


@case
def attributes_that_the_object_takes_and_has_not(folder):
    text = SCENE.replace(":OrigBoxSize 24 32", ":OrigBoxSize 24 32 :")
    found = offered(folder, ":OrigBoxSize 24 32 :", 20, text)
    return [name in found for name in (":OrigPosition", ":OrigBoxSize", ":EventType")], [True, False, False]


@case
def classes_behind_a_brace(folder):
    text = SCENE.replace("{:Rectangle", "{:Rect")
    found = offered(folder, "{:Rect", 6, text)
    return [name in found for name in (":Rectangle", ":Link", ":Scene")], [True, True, False]


@case
def actions_in_an_effect(folder):
    text = SCENE.replace(":LinkEffect ( :SetBoxSize", ":LinkEffect ( : :SetBoxSize")
    found = offered(folder, ":LinkEffect ( :", 15, text)
    return [name in found for name in (":Run", ":SetPosition", ":OrigBoxSize")], [True, True, False]


@case
def targets_that_an_action_takes(folder):
    return offered(folder, ":SetPosition (1", 15), ["1"]


@case
def variables_of_the_application_as_targets(folder):
    return offered(folder, ":Add (", 6), ['("~/a" 1)']


@case
def scenes_to_go_to(folder):
    text = APPLICATION
    editor = Editor(service(folder))
    editor.open("a", text)
    number = editor.about("completion", "a", place_of(text, ":TransitionTo (", 15))
    return [item["label"] for item in editor.play()[0][number]], ['("~/s" 0)']


@case
def types_of_events(folder):
    found = offered(folder, ":EventType UserInput", 20)
    return (len(found), "TestEvent" in found), (25, True)


@case
def what_a_completion_replaces(folder):
    answer, _ = asked(folder, "completion", place_of(SCENE, ":EventType UserInput", 15))
    return answer[0]["textEdit"]["range"], range_of(SCENE, "UserInput", "User")


@case
def symbols_of_a_file(folder):
    answer, _ = asked(folder, "documentSymbol")
    return [(one["name"], one["range"]["start"]["line"], one["range"]["end"]["line"]) for one in answer], [
        ("Scene 0", 0, 15),
        ("Rectangle 1", 3, 3),
        ("Link 2", 4, 10),
        ("Link 3", 11, 13),
    ]


@case
def symbols_of_a_service(folder):
    editor = Editor(service(folder))
    editor.open("s", SCENE)
    number = editor.ask("workspace/symbol", {"query": "Var"})
    answer = editor.play()[0][number]
    return [(one["name"], one["location"]["uri"]) for one in answer], [("IntegerVar 1", editor.uri("a"))]


@case
def folds(folder):
    answer, _ = asked(folder, "foldingRange")
    return sorted((one["startLine"], one["endLine"]) for one in answer), [(0, 14), (2, 13), (4, 9), (5, 8), (11, 12)]


@case
def colours(folder):
    answer, _ = asked(folder, "documentColor")
    wanted = {"red": 1.0, "green": 0.0, "blue": 0.0, "alpha": 1.0}
    return answer, [{"color": wanted, "range": range_of(SCENE, "'=FF=00=00=00'")}]


@case
def how_a_colour_is_written(folder):
    editor = Editor(service(folder))
    editor.open("s", SCENE)
    colour = {"red": 0.5, "green": 0.0, "blue": 1.0, "alpha": 1.0}
    number = editor.about("colorPresentation", "s", color=colour, range=between((3, 0), (3, 1)))
    return editor.play()[0][number][0]["label"], "'=80=00=FF=00'"


@case
def a_layout_that_is_good(folder):
    return asked(folder, "formatting", options={})[0], []


@case
def a_layout_that_is_not(folder):
    text = SCENE.replace("    :InputEventReg 3", "  :InputEventReg 3 ").replace("    )\n}\n", "\t )\n  \t\n}\n")
    answer, _ = asked(folder, "formatting", text=text, options={})
    line = place_of(text, "\t )")[0]
    return answer, [
        {"newText": "    ", "range": between((1, 0), (1, 2))},
        {"newText": "    ", "range": between((line, 0), (line, 2))},
        {"newText": "", "range": between((line + 1, 0), (line + 1, 3))},
    ]


@case
def a_layout_of_a_comment(folder):
    text = SCENE.replace("    :InputEventReg 3", "// {( of one line \n    :InputEventReg 3 // }) behind")
    answer, _ = asked(folder, "formatting", text=text, options={})
    return answer, [{"newText": "    ", "range": between((1, 0), (1, 0))}]


@case
def a_layout_of_brackets_that_do_not_close(folder):
    return asked(folder, "formatting", text=SCENE.replace("    )\n}", "    )\n  "), options={})[0], []


@case
def a_layout_of_what_is_no_text(folder):
    return asked(folder, "formatting", text="  {:Scene ? \n", options={})[0], []


@case
def a_note_may_be_turned_off(folder):
    told = [{"severity": 3, "code": "no-actions"}, {"severity": 2, "code": "x"}]
    answer, editor = asked(folder, "codeAction", range=between((0, 0), (0, 1)), context={"diagnostics": told})
    edit = {"newText": "// lint: allow no-actions\n", "range": between((0, 0), (0, 0))}
    return [(one["title"], one["edit"]["changes"]) for one in answer], [
        ("allow no-actions in this file", {editor.uri("s"): [edit]})
    ]


@case
def what_is_not_Shared_may_be_made_so(folder):
    leads_away = ":LinkEffect ( :TransitionTo ((\"~/s\" 0)) )"
    text = APPLICATION.replace('    :OnStartUp ( :TransitionTo (("~/s" 0)) )\n', "").replace(
        "{:IntegerVar 1", f"{{:Text 4 :OrigBoxSize 24 16}}\n        {{:Link 5 :EventSource 0 :EventType IsRunning {leads_away}}}\n        {{:IntegerVar 1"
    )
    path = service(folder, a=text)
    editor = Editor(path)
    editor.open("a", text)
    note = next(n for n in diagnostics(editor.play()[1], path)["a"] if n["code"] == "not-shared")
    asked = editor.about("codeAction", "a", range=note["range"], context={"diagnostics": [note]})
    answer = editor.play()[0][asked]
    line, character = place_of(text, "4 :OrigBoxSize", 1)
    edit = {"newText": " :Shared true", "range": between((line, character), (line, character))}
    return (answer[0]["title"], answer[0]["edit"]["changes"], len(answer)), ("make it Shared", {editor.uri("a"): [edit]}, 2)


@case
def a_word_that_was_meant_may_be_written(folder):
    text = SCENE.replace(":OrigBoxSize", ":OrigBoxsize")
    where = range_of(text, ":OrigBoxsize")
    message = "no table has `:OrigBoxsize`; write `:OrigBoxSize`"
    told = [{"severity": 1, "code": "22", "message": message, "range": where}]
    answer, editor = asked(folder, "codeAction", text=text, range=where, context={"diagnostics": told})
    edit = {"newText": ":OrigBoxSize", "range": where}
    return [(one["title"], one["edit"]["changes"]) for one in answer], [
        ("write :OrigBoxSize", {editor.uri("s"): [edit]})
    ]


@case
def a_number_that_was_meant_may_be_written(folder):
    where = range_of(SCENE, "1 48 64", "1")
    message = "SetBoxSize is done to object 9 of s, and s has no object 9; name an object that is there; the nearest number is 1"
    told = [{"severity": 1, "code": "V1", "message": message, "range": where}]
    answer, _ = asked(folder, "codeAction", range=where, context={"diagnostics": told})
    return [one["title"] for one in answer], ["write 1"]


@case
def a_file_that_is_not_there(folder):
    editor = Editor(service(folder))
    number = editor.about("hover", "absent", (0, 0))
    return codes(editor.play()[0][number]), -32602


@case
def a_file_that_is_not_open(folder):
    editor = Editor(service(folder))
    number = editor.about("hover", "s", place_of(SCENE, ":Link", 1))
    return editor.play()[0][number]["contents"]["value"], "**Link**: does its effect whenever it hears its event"


@case
def a_place_that_is_not_told(folder):
    return codes(asked(folder, "hover")[0]), -32602


def main(names):
    wrong = 0
    for name, function in CASES.items():
        if names and not any(word in name for word in names):
            continue
        with tempfile.TemporaryDirectory() as folder:
            try:
                got, wanted = function(folder)
            except Exception as error:  # a case that cannot be played is told, and the others go on
                got, wanted = f"{type(error).__name__}: {error}", "an answer"
        if got != wanted:
            wrong += 1
            print(f"{name}:\n  wanted {wanted}\n  got    {got}")
    print(f"{len(CASES)} cases, {wrong} wrong")
    return 1 if wrong else 0


if __name__ == "__main__":
    sys.exit(main(sys.argv[1:]))
