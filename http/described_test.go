package main

import (
	"encoding/json"
	"fmt"
	"net/http"
	"regexp"
	"strings"
	"testing"
)

// A node is part of the description.
type node map[string]any

func (n node) at(names ...string) node {
	for _, name := range names {
		found, _ := n[name].(map[string]any)
		n = node(found).resolved()
	}
	return n
}

// resolved is the node that a reference leads to.
func (n node) resolved() node {
	if to, is := n["$ref"].(string); is {
		return described().at(strings.Split(strings.TrimPrefix(to, "#/"), "/")...)
	}
	return n
}

var whole node

func described() node {
	if whole == nil {
		if err := json.Unmarshal(description, &whole); err != nil {
			panic(err)
		}
	}
	return whole
}

// operationOf is what the description says of a request, nil where it has none of this path.
func operationOf(method, path string) node {
	path, _, _ = strings.Cut(path, "?")
	if method == http.MethodHead {
		method = http.MethodGet
	}
	for template := range described().at("paths") {
		if regexp.MustCompile("^" + regexp.MustCompile(`\{\w+\}`).ReplaceAllString(template, `[^/]*`) + "$").MatchString(path) {
			return described().at("paths", template, strings.ToLower(method))
		}
	}
	return nil
}

// isDescribed looks whether an answer is one that the description has: by its status, its headers, its kind and its body.
func isDescribed(t testing.TB, method, path string, answer *http.Response, body []byte) {
	t.Helper()
	operation := operationOf(method, path)
	told := operation.at("responses", fmt.Sprint(answer.StatusCode))
	if len(operation) == 0 {
		// Other paths and methods have faults alone.
		told = node{"content": map[string]any{asJSON: map[string]any{"schema": map[string]any{"$ref": "#/components/schemas/Fault"}}}}
	}
	if len(told) == 0 {
		t.Fatalf("%s %s: the description has no status %d: %s", method, path, answer.StatusCode, body)
	}
	for name := range told.at("headers") {
		if answer.Header.Get(name) == "" && name != "Link" {
			t.Errorf("%s %s: %d without %s", method, path, answer.StatusCode, name)
		}
	}
	kind, _, _ := strings.Cut(answer.Header.Get("Content-Type"), ";")
	if schema := told.at("content", kind, "schema"); len(told.at("content")) > 0 && len(schema) == 0 {
		t.Errorf("%s %s: %d is of the kind %q, not %v", method, path, answer.StatusCode, kind, told.at("content"))
	} else if kind == asJSON && method != http.MethodHead {
		fits(t, fmt.Sprintf("%s %s: %s", method, path, body), schema, read(t, body))
	}
}

func read(t testing.TB, text []byte) (value any) {
	t.Helper()
	reader := json.NewDecoder(strings.NewReader(string(text)))
	reader.UseNumber()
	if err := reader.Decode(&value); err != nil {
		t.Fatalf("no JSON: %q: %v", text, err)
	}
	return value
}

// fits looks whether a value is as a schema says.
func fits(t testing.TB, what string, schema node, value any) {
	t.Helper()
	schema = schema.resolved()
	if schema["nullable"] == true && value == nil {
		return
	}
	for _, part := range list(schema["allOf"]) {
		fits(t, what, node(part.(map[string]any)), value)
	}
	isOne := schema["enum"] == nil
	for _, it := range list(schema["enum"]) {
		isOne = isOne || it == value
	}
	if !isOne || !isOfType(schema["type"], value) {
		t.Errorf("%s: %v is none of %v %v", what, value, schema["type"], schema["enum"])
	}
	switch value := value.(type) {
	case map[string]any:
		for _, name := range list(schema["required"]) {
			if _, is := value[name.(string)]; !is {
				t.Errorf("%s: %v is missing", what, name)
			}
		}
		for name, it := range value {
			if known := schema.at("properties", name); len(known) > 0 {
				fits(t, what, known, it)
			} else if schema["additionalProperties"] == false {
				t.Errorf("%s: %s is not described", what, name)
			}
		}
	case []any:
		for _, it := range value {
			fits(t, what, schema.at("items"), it)
		}
		if least, is := schema["minItems"].(float64); is && float64(len(value)) < least {
			t.Errorf("%s: too few: %v", what, value)
		}
	}
}

func list(it any) []any { found, _ := it.([]any); return found }

func isOfType(kind, value any) bool {
	switch value := value.(type) {
	case string:
		return kind == nil || kind == "string"
	case bool:
		return kind == nil || kind == "boolean"
	case json.Number:
		_, err := value.Int64()
		return kind == nil || kind == "integer" && err == nil
	case []any:
		return kind == nil || kind == "array"
	case map[string]any:
		return kind == nil || kind == "object"
	}
	return false
}
