"""docs/openapi.json against OpenAPI's own schema, the examples of docs/API.md, and the built server."""
import http.client
import json
import pathlib
import re
import shlex
import socket
from collections.abc import Iterator
from dataclasses import dataclass
from importlib.machinery import SourceFileLoader
from importlib.util import module_from_spec, spec_from_loader
from types import ModuleType
from typing import Any

import pytest
from jsonschema import Draft4Validator, Draft202012Validator, RefResolver
from served import TOP, served, token

DOCUMENT = json.loads((TOP / "docs/openapi.json").read_text())
PAGE = (TOP / "docs/API.md").read_text()
# Debian's package openapi-specification has the schema of 3.0, of which 3.1 differs in the schemas alone.
SPECIFICATION = pathlib.Path("/usr/share/openapi-specification/schemas/v3.0/schema.json")
METHODS = ("get", "post", "delete")
# What a schema can say. The grammar of labels and the order of a box's ends are beyond it.
BY_SCHEMA = ("json", "field", "name")


@dataclass(frozen=True)
class Example:
    """An example of docs/API.md."""

    user: str
    method: str
    path: str
    body: Any
    status: str
    reply: Any


@dataclass(frozen=True)
class Operation:
    """An operation of the document, with the path that it stands under."""

    method: str
    path: str
    parameters: dict[str, Any]
    content: dict[str, Any]

    def names(self, path: str) -> dict[str, str] | None:
        """The names in a path, or none where it is another path."""
        pattern = re.sub(r"\{(\w+)\}", r"(?P<\1>[^/]+)", self.path)
        found = re.fullmatch(pattern, path)
        return found.groupdict() if found else None

    def body(self) -> Any:
        """The schema of its body, or none where it is not read."""
        request = self.content.get("requestBody")
        return request and request["content"]["application/json"]["schema"]

    def takes(self, names: dict[str, str], body: Any) -> bool:
        """Whether the schemas take the names in the path and the body."""
        schema = self.body()
        return (schema is None or is_valid(schema, body)) and all(
            is_valid(self.parameters[name], value) for name, value in names.items()
        )


RESOLVER = RefResolver.from_schema(DOCUMENT)


def followed(item: Any) -> Any:
    """What an item of the document is, where it may be a reference."""
    while "$ref" in item:
        _, resolved = RESOLVER.resolve(item["$ref"])
        item = resolved
    return item


def validator(schema: Any) -> Draft202012Validator:
    return Draft202012Validator(schema, resolver=RESOLVER)


def is_valid(schema: Any, value: Any) -> bool:
    valid: bool = validator(schema).is_valid(value)
    return valid


def operations() -> Iterator[Operation]:
    for path, item in DOCUMENT["paths"].items():
        given = [followed(parameter) for parameter in item.get("parameters", [])]
        for method in METHODS:
            if method in item:
                schemas = {parameter["name"]: parameter["schema"] for parameter in given}
                yield Operation(method.upper(), path, schemas, item[method])


def reader() -> ModuleType:
    """The program that runs the examples, which reads them from the page."""
    loader = SourceFileLoader("api_examples", str(TOP / "tools/api_examples"))
    spec = spec_from_loader("api_examples", loader)
    assert spec is not None
    module = module_from_spec(spec)
    loader.exec_module(module)
    return module


def examples() -> list[Example]:
    found = []
    for request, shown in reader().examples(PAGE)[1]:
        _, user, method, path, *body = shlex.split(request)
        status, reply = shown.split(" ", 1)
        found.append(Example(user, method, path, json.loads(body[0]) if body else None, status, json.loads(reply)))
    return found


def operation_of(method: str, path: str) -> Operation | None:
    """The operation of a method and a path; a path without a name comes before one with it."""
    mine = [one for one in operations() if one.method == method and one.names(path) is not None]
    return min(mine, key=lambda one: one.path.count("{")) if mine else None


def media(response: Any) -> Any:
    return followed(response)["content"]["application/json"]


def contents(item: Any) -> Iterator[Any]:
    """Each object of the document that has a schema."""
    if isinstance(item, dict):
        if isinstance(item.get("schema"), dict):
            yield item
        item = list(item.values())
    if isinstance(item, list):
        for value in item:
            yield from contents(value)


def test_the_document_is_openapi() -> None:
    """Its structure is that of 3.0 with the schemas left out, and its schemas are JSON Schema 2020-12."""
    rules = json.loads(SPECIFICATION.read_text())
    rules["properties"]["openapi"] = {"const": "3.1.0"}
    rules["definitions"]["Schema"] = {"type": "object", "not": {"required": ["$ref"]}}
    rules["definitions"]["Info"]["properties"]["summary"] = {"type": "string"}
    Draft4Validator(rules).validate(DOCUMENT)
    for schema in [one["schema"] for one in contents(DOCUMENT)] + list(DOCUMENT["components"]["schemas"].values()):
        Draft202012Validator.check_schema(schema)
    names = [one.content["operationId"] for one in operations()]
    assert len(names) == len(set(names)) == 29


def test_every_reference_leads_somewhere() -> None:
    for reference in re.findall(r'"\$ref": "([^"]*)"', json.dumps(DOCUMENT)):
        RESOLVER.resolve(reference)


def test_each_line_of_the_page_is_an_operation() -> None:
    """The lines are those of the page's tables; `/grant`, `/revoke` in one cell are two."""
    lines = set()
    for row in re.findall(r"^\| `(?:GET|POST|DELETE) .*$", PAGE, re.MULTILINE):
        (method, path), *others = re.findall(r"`(?:(GET|POST|DELETE) )?(/[^`]*)`", row.split("|")[1])
        lines.add((method, path))
        lines.update((method, path.rsplit("/", 1)[0] + other) for _, other in others)
    assert lines == {(one.method, one.path) for one in operations()}


def test_each_refusal_of_the_page_is_described() -> None:
    table = PAGE.split("## Refusals")[1]
    schemas = DOCUMENT["components"]["schemas"]
    told = {schema["properties"]["error"]["const"] for name, schema in schemas.items() if name.endswith("Refusal")}
    assert set(re.findall(r'"error":"([a-z-]+)"', table)) == told


@pytest.mark.parametrize("example", examples(), ids=lambda one: f"{one.method} {one.path}")
def test_the_examples_of_the_page_are_of_the_document(example: Example) -> None:
    operation = operation_of(example.method, example.path)
    if operation is None:
        of_the_path = [one for one in operations() if one.names(example.path) is not None]
        response = DOCUMENT["components"]["responses"]["OtherMethod" if of_the_path else "NoRoute"]
        assert example.status == ("405" if of_the_path else "404")
    else:
        names = operation.names(example.path)
        assert names is not None
        response = operation.content["responses"][example.status]
        assert operation.takes(names, example.body) == (example.reply.get("error") not in BY_SCHEMA)
    validator(media(response)["schema"]).validate(example.reply)


def test_the_examples_of_the_document_are_of_the_page() -> None:
    """So each of them was seen: `tools/api_examples` runs those of the page."""
    bodies = [example.body for example in examples()]
    replies = [example.reply for example in examples()]
    shown = 0
    for one in contents(DOCUMENT):
        for example in one.get("examples", {}).values():
            shown += 1
            validator(one["schema"]).validate(example["value"])
            assert example["value"] in bodies or example["value"] in replies
    assert shown > 60


# Values at both sides of each bound, and of each kind.
NUMBERS = [-1, 0, 1, 32, 33, 64, 65, 1000, 1001, 2097151, 2097152, 19818086399, 19818086400, 2**64]
TEXTS = ["a" * length for length in (0, 1, 32, 33, 64, 65, 256, 257, 4096, 4097)]
NAMES = ["a_B9", "a.b", "a.b.c", ".a", "a.", "a-b", "a b", "é", "a" * 32 + "." + "b" * 32, "a." + "b" * 33]
DIGESTS = ["a" * 63, "0" * 64, "aF" * 32, "g" * 64]
WORDS = ["READ", "WRITE", "ALTER_TABLE", "GRANT", "DROP_TABLE", "CREATE_TABLE", "CREATE_USER", "DROP_USER", "ALTER_USER"]
WORDS += ["SYSTEM", "read", "day", "week", "month"]
PLACE: dict[str, Any] = {"point": [0, 0, 0], "id": "a", "label": ""}
PLACES: list[dict[str, Any]] = [{}, PLACE, {**PLACE, "more": 1}, {**PLACE, "id": "", "label": "(("}, {**PLACE, "id": 1}]
PLACES += [{**PLACE, "point": [0, 0]}]
LISTS: list[list[Any]] = [[], ["a"], ["a", "a"], [1], [""], ["a" * 256], ["a" * 257], ["a", None]]
LISTS += [[0] * length for length in (2, 3, 4, 5, 6, 7)]
LISTS += [[2097151, 2097151, 19818086399], [2097152, 0, 0], [0, 2097152, 0], [0, 0, 19818086400], [0, -1, 0], [0, "0", 0]]
LISTS += [[0, 2097151, 0, 2097151, 0, 19818086399], [0, 2097152, 0, 0, 0, 0], [0, 0, 0, 0, 0, 19818086400], [0, 0, -1, 0, 0, 0]]
VALUES: list[Any] = [None, True, False, *NUMBERS, *TEXTS, *NAMES, *DIGESTS, *WORDS, *PLACES, *LISTS]
ROUTE_NAMES = ["a", "a_B9", "a" * 32, "a" * 33, "a.b", "a.b.c", ".a", "a.", "a-b", "a" * 32 + "." + "b" * 32, "a." + "b" * 33]


def changed(body: dict[str, Any]) -> Iterator[Any]:
    """The body with each field left out, and with each other value of it."""
    for field in body:
        yield {name: value for name, value in body.items() if name != field}
        for value in VALUES:
            yield {**body, field: value}


def requests(operation: Operation) -> Iterator[tuple[dict[str, str], Any]]:
    """Names in the path and bodies, of which the schemas take some."""
    names = {name: "none" for name in operation.parameters}
    first: Any = None
    if operation.body():
        shown = operation.content["requestBody"]["content"]["application/json"]["examples"]
        first = max((one["value"] for one in shown.values()), key=len)
        yield from ((names, body) for body in [*changed(first), [first], None, True, "{}"])
    yield from (({name: route}, first) for name in names for route in ROUTE_NAMES)


def test_the_server_takes_what_the_schemas_take() -> None:
    """And each of its replies is one that the document has for the operation and the status."""
    asked = 0
    with served("A", "B") as port:
        connection = http.client.HTTPConnection("127.0.0.1", port, timeout=60)
        for operation in operations():
            schemas = {status: media(one)["schema"] for status, one in operation.content["responses"].items()}
            for names, body in requests(operation):
                asked += 1
                text = "" if operation.body() is None else json.dumps(body)
                path = operation.path.format(**names)
                connection.request(operation.method, path, text, {"Authorization": f"Bearer {token('root')}"})
                answer = connection.getresponse()
                reply = json.loads(answer.read())
                told = f"{operation.method} {path} {text[:300]} {answer.status} {reply}"
                if operation.takes(names, body):
                    assert reply.get("error") not in BY_SCHEMA, told
                else:
                    assert reply.get("error") in (*BY_SCHEMA, "box"), told
                assert is_valid(schemas[str(answer.status)], reply), told
    assert asked > 3500


TOKEN = f"Authorization: Bearer {token('root')}\r\n"
FAULTS = {
    "HeadRefusal": "GET /whoami\r\n\r\n",
    "HostRefusal": f"GET /whoami HTTP/1.1\r\n{TOKEN}\r\n",
    "LengthRefusal": f"POST /label HTTP/1.1\r\nHost: a\r\n{TOKEN}Transfer-Encoding: chunked\r\n\r\n",
    "SizeRefusal": f"POST /label HTTP/1.1\r\nHost: a\r\n{TOKEN}Content-Length: 65537\r\n\r\n",
    "HeadersRefusal": f"GET /whoami HTTP/1.1\r\nHost: a\r\n{TOKEN}" + "A: b\r\n" * 63 + "\r\n",
}


@pytest.mark.parametrize("name", FAULTS)
def test_faults_of_the_head_are_those_of_the_document(name: str) -> None:
    operation = operation_of("GET", "/whoami")
    assert operation is not None
    with served() as port, socket.create_connection(("127.0.0.1", port), timeout=60) as client:
        client.sendall(FAULTS[name].encode())
        answer = http.client.HTTPResponse(client)
        answer.begin()
        reply = json.loads(answer.read())
        validator({"$ref": f"#/components/schemas/{name}"}).validate(reply)
        validator(media(operation.content["responses"][str(answer.status)])["schema"]).validate(reply)
        assert client.recv(1) == b""


def test_headers_of_replies_are_those_of_the_document() -> None:
    responses = DOCUMENT["components"]["responses"]
    cases = [("GET", "/whoami", "Token"), ("DELETE", "/label", "OtherMethod")]
    with served() as port:
        connection = http.client.HTTPConnection("127.0.0.1", port, timeout=60)
        for method, path, name in cases:
            connection.request(method, path)
            answer = connection.getresponse()
            validator(responses[name]["content"]["application/json"]["schema"]).validate(json.loads(answer.read()))
            for field, header in responses[name]["headers"].items():
                validator(header["schema"]).validate(answer.getheader(field))
