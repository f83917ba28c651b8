"""A counted schema as JSON Schema, of draft 2020-12: it holds for each document that is stored now."""

from __future__ import annotations

from typing import Any, Dict, Optional, Union

from .schemas import Node, kinds_of
from .wording import many

DRAFT = "https://json-schema.org/draft/2020-12/schema"
_TYPES = {"text": "string"}
_KEY = {"type": "integer", "minimum": 0, "maximum": (1 << 63) - 1}


def json_schema(schema: Optional[Node]) -> Dict[str, Any]:
    """The JSON Schema of documents as they are read, with their `id`, which the counted schema leaves out."""
    top: Dict[str, Any] = {"$schema": DRAFT}
    if schema is None:
        return {**top, "$comment": "no documents", "not": {}}
    documents = _kind("object", schema)
    documents["properties"] = {"id": _KEY, **documents["properties"]}
    documents["required"] = ["id", *documents.get("required", [])]
    return {**top, "$comment": many(schema["count"], "document"), **documents}


def _place(node: Optional[Node]) -> Union[Dict[str, Any], bool]:
    if node is None:
        return False
    kinds = [_kind(kind, it) for kind, it in kinds_of(node).items()]
    if len(kinds) == 1:
        return kinds[0]
    if all(set(kind) == {"type"} for kind in kinds):
        return {"type": [kind["type"] for kind in kinds]}
    return {"anyOf": kinds}


def _kind(kind: str, node: Node) -> Dict[str, Any]:
    said: Dict[str, Any] = {"type": _TYPES.get(kind, kind)}
    if kind == "array":
        said["items"] = _place(node["items"])
    if kind == "object":
        said["properties"] = {name: _place(field) for name, field in node["fields"].items()}
        required = [name for name, field in node["fields"].items() if field["count"] == node["count"]]
        if required:
            said["required"] = required
        said["additionalProperties"] = False
    return said
