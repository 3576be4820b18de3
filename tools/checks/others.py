"""The readers of other tools' graphs: what they make of each part, what they tell, and that dcr takes what they made."""

import json
import os
import random
import tempfile

from checks import run, want
from checks.program import DONE, PROGRAM, prepare  # noqa: F401
from checks.tools import tool


def made(name, text, *words):
    """The case that a reader makes of a file, and the lines that it tells. dcr must take the case."""
    with tempfile.TemporaryDirectory() as folder:
        path = os.path.join(folder, "graph")
        with open(path, "w", encoding="utf-8") as file:
            file.write(text)
        status, wrote, said = tool(name, *words, path)
    want(status == 0, "%s has status %d: %s" % (name, status, said))
    ran = run([PROGRAM, "run"], wrote.encode())
    want(ran[0] == DONE, "dcr answers %s for %s" % (ran[1], wrote))
    return json.loads(wrote), said.splitlines()


def want_told(said, *lines):
    for it in lines:
        want(it in said, "`%s` is not told, but %s" % (it, said))
    more = [it for it in said if it not in lines]
    want(not more, "it is told too: %s" % more)


# ---- DCR-JS's JSON

JS = {
    "events": {"isSet": True, "set": ["Event_1", "Event_2", "Event 3", "Event_4"]},
    "conditionsFor": {"Event_2": {"isSet": True, "set": ["Event_1"]}, "Nest_1": ["Event_1"]},
    "milestonesFor": {"Event_4": ["Event 3"]},
    "responseTo": {"Event_1": ["Event_2"], "Event_2": ["Sub_1"]},
    "includesTo": {"Event_1": ["Event 3"]},
    "excludesTo": {"Event_1": ["Event 3"], "Event_2": ["Event_2", "nothing"]},
    "marking": {"executed": ["Event_1"], "included": ["Event_1", "Event_2", "Event_4", "Sub_1"], "pending": ["Event_4"]},
    "labelMap": {"Event_1": "File the claim"},
    "roleMap": {"Event_1": "the customer", "Event_2": "insurer"},
    "nestingIds": ["Nest_1", "Nest_2"],
    "nestingRelations": {"Event_2": "Nest_1", "Event 3": "Nest_1"},
    "subProcesses": {"Sub_1": {"events": ["inside"]}},
    "deadlines": {"Event_2": 3},
}


def check_a_graph_of_dcr_js():
    case, said = made("from_dcr_js.py", json.dumps(JS))
    want_told(
        said,
        "left out: the member `deadlines`",
        "left out: the sub-processes' inside; the event Sub_1 stands in the case, and what is in it doesn't: inside",
        "left out: the nest Nest_2, which has nothing in it",
        "left out: the exclude from Event_1 to Event 3, which are related by an include too; there the include wins",
        "left out: the exclude from Event_2 to nothing, an end of which is no event of the case",
        "renamed: the event `Event 3` is `Event-3`",
        "renamed: the site `the customer` is `the-customer`",
    )
    wanted = [
        {"name": "Nest_1"},
        {"name": "Event_2", "parent": "Nest_1"},
        {"name": "Event-3", "label": "Event 3", "parent": "Nest_1", "included": False},
        {"name": "Event_1", "label": "File the claim", "executed": True},
        {"name": "Event_4", "pending": True},
        {"name": "Sub_1"},
    ]
    want(case["graph"]["events"] == wanted, str(case["graph"]["events"]))
    relations = [["condition", "Event_1", "Event_2"], ["condition", "Event_1", "Nest_1"], ["milestone", "Event-3", "Event_4"]]
    relations += [["response", "Event_1", "Event_2"], ["response", "Event_2", "Sub_1"], ["include", "Event_1", "Event-3"], ["exclude", "Event_2", "Event_2"]]
    want(case["graph"]["relations"] == relations, str(case["graph"]["relations"]))
    cover = [{"site": "insurer", "events": ["Event_2"]}, {"site": "all", "events": ["Event-3", "Event_4", "Sub_1"]}, {"site": "the-customer", "events": ["Event_1"]}]
    want(case["cover"] == cover, str(case["cover"]))
    one, _ = made("from_dcr_js.py", json.dumps(JS), "--site", "here")
    want([it["site"] for it in one["cover"]] == ["here"] and len(one["cover"][0]["events"]) == 5, str(one["cover"]))


def check_the_roles_of_dcr_js_beside_one_site():
    given = {**JS, "roleMap": {"Event_1": "the customer", "Event_2": ["insurer", "Læge", "insurer"], "Nest_1": "boss", "Event_4": ""}}
    with_sites, told = made("from_dcr_js.py", json.dumps(given), "--site", "here")
    case, said = made("from_dcr_js.py", json.dumps(given), "--roles", "--site", "here")
    roles = {event["name"]: event.pop("roles") for event in case["graph"]["events"] if "roles" in event}
    want(roles == {"Event_1": ["the-customer"], "Event_2": ["insurer", "Laege"]}, str(roles))
    want(case == {"version": "3", **with_sites}, "more than roles is other: %s" % case)
    more = [it for it in said if it not in told]
    want_told(more, "left out: the roles of the nest Nest_1 (boss), which would be those of all events below it", "renamed: the role `the customer` is `the-customer`", "renamed: the role `Læge` is `Laege`")
    want([it for it in told if it not in said] == [], "some of what is told without roles isn't told")
    want([it["site"] for it in made("from_dcr_js.py", json.dumps(given), "--roles")[0]["cover"]] == ["all"], "another site")
    # (two roles stay two, whatever letters they have)
    graph = {"events": ["a", "b"], "roleMap": {"a": "Læge", "b": "Laege"}, "marking": {"included": ["a", "b"]}}
    case, said = made("from_dcr_js.py", json.dumps(graph), "--roles")
    want([it["roles"] for it in case["graph"]["events"]] == [["Laege"], ["Laege-2"]] and len(said) == 2, str((case, said)))


def check_roles_by_other_words_are_usage():
    for words in (["--roles"], ["--roles", "--site", "here"], ["--site", "here", "--roles", "-"], ["--roles", "--roles", "-"], ["--roles", "--site", "1here", "-"], ["-", "--roles"]):
        status, wrote, said = tool("from_dcr_js.py", *words, given=json.dumps(JS).encode())
        want(status == 2 and not wrote and "tools/from_dcr_js.py" in said, "%s: %d %s%s" % (words, status, wrote, said))


def check_names_are_spelled_out_and_never_the_same():
    roles = ["Læge", "Laege", "læge", "Lége", "Sygeplejerske på afd. 3", "看護師", "医師", "L-ge", "all", "x" * 90, "x" * 89 + "y"]
    graph = {"events": ["e%d" % k for k in range(len(roles) + 1)], "roleMap": {"e%d" % k: role for k, role in enumerate(roles)}, "labelMap": {"e0": "Ordinér medicin"}}
    graph["marking"] = {"included": graph["events"]}
    case, said = made("from_dcr_js.py", json.dumps(graph))
    sites = [it["site"] for it in case["cover"]]
    want(len({*sites}) == len(roles) + 1 and all(len(it["events"]) == 1 for it in case["cover"]), "two roles became one: %s" % sites)
    want(sites[:3] == ["Laege", "Laege-2", "laege"] and "renamed: the site `Læge` is `Laege`" in said and "renamed: the site `Laege` is `Laege-2`" in said, str((sites, said)))
    renamed = [role for role in roles if "renamed: the site `%s` is " % role in "\n".join(said)]
    want(renamed == [role for role, site in zip(roles, sites) if role != site] and len(said) == len(renamed), "told are %s" % said)
    want(case["graph"]["events"][0] == {"name": "e0", "label": "Ordinér medicin"}, "the label is lost")
    _, said = made("from_dcr_js.py", json.dumps({"events": ["Må", "Maa"], "marking": {"included": ["Må", "Maa"]}}))
    want(said == ["renamed: the event `Må` is `Maa`", "renamed: the event `Maa` is `Maa-2`"], str(said))


def check_a_clash_through_a_nest_is_left_out():
    graph = {"events": ["a", "b", "c", "d"], "nestingIds": ["N"], "nestingRelations": {"b": "N", "c": "N"}, "marking": {"included": ["a", "b", "c", "d"]}}
    case, said = made("from_dcr_js.py", json.dumps({**graph, "includesTo": {"a": ["N"]}, "excludesTo": {"a": ["c", "d"]}}))
    want(case["graph"]["relations"] == [["include", "a", "N"], ["exclude", "a", "d"]] and len(said) == 1, str((case["graph"]["relations"], said)))
    case, said = made("from_dcr_js.py", json.dumps({**graph, "includesTo": {"a": ["c"]}, "excludesTo": {"a": ["N"]}}))
    want(case["graph"]["relations"] == [["include", "a", "c"], ["exclude", "a", "b"]], str(case["graph"]["relations"]))
    draw = random.Random(1)
    for _ in range(40):
        names = ["e%d" % k for k in range(draw.randint(2, 8))]
        inside = {name: names[draw.randrange(k)] for k, name in enumerate(names) if k and draw.random() < 0.4}
        random_graph = {"events": [it for it in names if it not in inside.values()], "nestingIds": [*dict.fromkeys(inside.values())], "nestingRelations": inside}
        for member in ("includesTo", "excludesTo", "conditionsFor", "responseTo"):
            random_graph[member] = {name: draw.sample(names, draw.randint(0, 2)) for name in names if draw.random() < 0.5}
        random_graph["marking"] = {"included": names}
        made("from_dcr_js.py", json.dumps(random_graph))


def check_what_is_no_graph_of_dcr_js_is_one_line():
    for text in ("[1]", "[]", "3", "null", "{", "", "{}", '{"events": [1]}', '{"events": {"a": 1, "set": 3}}', '{"events": ["a"], "conditionsFor": [1]}', '{"events": ["a"], "nestingRelations": {"a": [[1]]}}', '{"events":["a","b"],"nestingRelations":{"a":"b","b":"a"}}', "\ufeff{}", '{"events":["a"],"marking":[1]}', '{"events":["a"],"subProcesses":{"s":[1]},"marking":{"included":[1]}}'):
        status, wrote, said = tool("from_dcr_js.py", "-", given=text.encode())
        lines = [it for it in said.splitlines() if not it.startswith("left out: ")]
        want(status == 2 and not wrote and len(lines) == 1 and "Traceback" not in said, "%s: %d %s%s" % (text, status, wrote, said))


def check_a_case_that_dcr_refuses_is_told():
    events = ["e%d" % k for k in range(1_025)]
    status, _, said = tool("from_dcr_js.py", "-", given=json.dumps({"events": events, "marking": {"included": events}}).encode())
    want(status == 1 and "dcr refuses this case: refused 4 limit atoms 1025" in said, "%d %s" % (status, said))


# ---- the XML of editors

PORTAL = """<?xml version="1.0" encoding="utf-8"?>
<dcrgraph title="Expense report" dataTypesStatus="hide">
 <meta><graph id="1" hash="" guid=""/></meta>
 <specification>
  <resources>
   <events>
    <event id="Activity1" scope="private">
     <custom>
      <visualization><location xLoc="10" yLoc="20"/></visualization>
      <roles><role>Medarbejder</role></roles>
      <readRoles><readRole/></readRoles>
      <groups><group/></groups>
      <eventType/>
      <level>1</level>
      <sequence>1</sequence>
      <eventData/>
     </custom>
    </event>
    <event id="Group1" type="nesting">
     <custom><roles><role/></roles><visualization><location xLoc="1" yLoc="2"/></visualization></custom>
     <event id="Activity2">
      <custom><roles><role>Chef</role><role>Medarbejder</role></roles><groups><group>night</group></groups></custom>
     </event>
     <event id="Activity3"><custom><roles><role>Chef</role></roles></custom></event>
    </event>
    <event id="Activity4"/>
    <event id="Sub1" type="subprocess"><custom><roles><role/></roles></custom><event id="inside"/></event>
   </events>
   <subProcesses/>
   <variables/>
   <expressions><expression id="amount" value="amount &gt; 100"/></expressions>
   <labels><label id="Angiv udlæg"/><label id="Godkend"/></labels>
   <labelMappings>
    <labelMapping eventId="Activity1" labelId="Angiv udlæg"/>
    <labelMapping eventId="Activity2" labelId="Godkend"/>
    <labelMapping eventId="Group1" labelId="Behandling"/>
   </labelMappings>
   <custom><roles><role title="Chef">Chef</role></roles><hightlighterMarkup/></custom>
  </resources>
  <constraints>
   <conditions><condition sourceId="Activity1" targetId="Group1" filterLevel="1" description="" time="" groups=""/></conditions>
   <responses><response sourceId="Activity1" targetId="Activity2" time="P3D"/></responses>
   <coresponses><coresponse sourceId="Activity3" targetId="Activity2"/></coresponses>
   <includes><include sourceId="Activity1" targetId="Activity4" expressionId="amount"/></includes>
   <excludes><exclude sourceId="Activity3" targetId="Group1"/><exclude sourceId="Activity2" targetId="inside"/></excludes>
   <milestones><milestone sourceId="Activity2" targetId="Activity4"/></milestones>
   <updates/>
   <spawns><spawn sourceId="Activity1" targetId="Sub1"/></spawns>
  </constraints>
 </specification>
 <runtime>
  <custom><globalMarking/></custom>
  <marking>
   <globalStore/>
   <executed/>
   <included><event id="Activity1"/><event id="Group1"/><event id="Activity2"/><event id="Activity3"/><event id="Sub1"/></included>
   <pendingResponses><event id="Activity1"/></pendingResponses>
  </marking>
 </runtime>
</dcrgraph>
"""


def check_a_graph_of_the_portal():
    case, said = made("from_dcr_xml.py", PORTAL)
    wanted = [
        {"name": "Activity1", "label": "Angiv udlæg", "pending": True},
        {"name": "Group1", "label": "Behandling"},
        {"name": "Activity2", "label": "Godkend", "parent": "Group1"},
        {"name": "Activity3", "parent": "Group1"},
        {"name": "Activity4", "included": False},
        {"name": "Sub1"},
    ]
    want(case["graph"]["events"] == wanted, str(case["graph"]["events"]))
    relations = [["condition", "Activity1", "Group1"], ["response", "Activity1", "Activity2"], ["cancel", "Activity3", "Activity2"], ["include", "Activity1", "Activity4"]]
    relations += [["exclude", "Activity3", "Group1"], ["milestone", "Activity2", "Activity4"]]
    want(case["graph"]["relations"] == relations and case["version"] == "2", str(case["graph"]["relations"]))
    cover = [{"site": "Medarbejder", "events": ["Activity1", "Activity2"]}, {"site": "Chef", "events": ["Activity2", "Activity3"]}, {"site": "all", "events": ["Activity4", "Sub1"]}]
    want(case["cover"] == cover, str(case["cover"]))
    want_told(
        said,
        "left out: the part `groups` of events",
        "left out: the sub-process of Sub1; its event stands in the case, and what is in it doesn't: inside",
        "left out: the part `expressions`",
        "left out: the time `P3D` of the response from Activity1 to Activity2, which holds without it in the case",
        "left out: the guard `amount` of the include from Activity1 to Activity4, which holds without it in the case",
        "left out: the relations `spawns`",
        "left out: the exclude from Activity2 to inside, an end of which is no event of the case",
    )


JS_XML = """<?xml version="1.0" encoding="UTF-8"?>
<dcr:definitions xmlns:dcr="http://tk/schema/dcr" xmlns:dcrDi="http://tk/schema/dcrDi" xmlns:dc="http://www.omg.org/spec/DD/20100524/DC">
  <dcr:dcrGraph id="dcrGraph">
    <dcr:nesting id="Nesting_1" description="Handling">
      <dcr:event id="Event_1" role="Doctor" description="Prescribe" included="true" executed="true" pending="false" enabled="true"/>
      <dcr:event id="Event_2" role="Nurse" description="Give" included="false" executed="false" pending="true"/>
    </dcr:nesting>
    <dcr:event id="Event_3" description="Sign"/>
    <dcr:subProcess id="SubProcess_1" description="Ward round" role="Nurse"><dcr:event id="Event_9"/></dcr:subProcess>
    <dcr:relation id="Relation_1" type="condition" sourceRef="Event_1" targetRef="Event_3"/>
    <dcr:relation id="Relation_2" type="noresponse" sourceRef="Event_3" targetRef="Nesting_1"/>
    <dcr:relation id="Relation_3" type="spawn" sourceRef="Event_1" targetRef="SubProcess_1"/>
  </dcr:dcrGraph>
  <dcrDi:dcrRootBoard id="RootBoard"><dcrDi:dcrPlane boardElement="dcrGraph"><dcrDi:dcrShape boardElement="Event_1"><dc:Bounds x="1" y="2" width="3" height="4"/></dcrDi:dcrShape></dcrDi:dcrPlane></dcrDi:dcrRootBoard>
</dcr:definitions>
"""


def check_a_graph_of_dcr_js_as_xml():
    case, said = made("from_dcr_xml.py", JS_XML)
    wanted = [
        {"name": "Nesting_1", "label": "Handling"},
        {"name": "Event_1", "label": "Prescribe", "parent": "Nesting_1", "executed": True},
        {"name": "Event_2", "label": "Give", "parent": "Nesting_1", "pending": True, "included": False},
        {"name": "Event_3", "label": "Sign"},
        {"name": "SubProcess_1", "label": "Ward round"},
    ]
    want(case["graph"]["events"] == wanted, str(case["graph"]["events"]))
    want(case["graph"]["relations"] == [["condition", "Event_1", "Event_3"], ["cancel", "Event_3", "Nesting_1"]], str(case["graph"]["relations"]))
    want({it["site"]: it["events"] for it in case["cover"]} == {"Doctor": ["Event_1"], "Nurse": ["Event_2", "SubProcess_1"], "all": ["Event_3"]}, str(case["cover"]))
    want_told(
        said,
        "left out: the sub-process of SubProcess_1; its event stands in the case, and what is in it doesn't: Event_9",
        "left out: the relation `spawn` from Event_1 to SubProcess_1",
    )


def check_what_is_no_graph_as_xml_is_one_line():
    texts = ["", "{}", "<a/>", "<dcrgraph/>", "<definitions/>", PORTAL[:900], PORTAL.replace('id="Activity3"', 'id="Activity2"', 1), PORTAL.replace('sourceId="Activity1" ', "", 1)]
    texts += ['<!DOCTYPE a [<!ENTITY b "c">]>' + PORTAL.split("\n", 1)[1]]
    for text in texts:
        status, wrote, said = tool("from_dcr_xml.py", "-", given=text.encode())
        lines = [it for it in said.splitlines() if not it.startswith("left out: ")]
        want(status == 2 and not wrote and len(lines) == 1 and "Traceback" not in said, "%s: %d %s%s" % (text[:60], status, wrote, said))
