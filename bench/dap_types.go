// Decodes messages of a debug adapter by the protocol's types of github.com/google/go-dap, which
// Debian has as golang-github-google-go-dap-dev:
//
//	GO111MODULE=off GOPATH=/usr/share/gocode go run bench/dap_types.go [NAME ..] <messages
//
// Standard input has a message on each line. A message has all fields that its type requires, and
// no field that its type does not have; its values have the field's types. NAMES are fields and
// requests that these types do not have yet. It prints a line for each message that differs, and
// how many messages there were; the status is 1 if one differs.
package main

import (
	"bufio"
	"bytes"
	"encoding/json"
	"fmt"
	"os"
	"reflect"
	"strings"

	"github.com/google/go-dap"
)

// The fields that a type requires and a value lacks, each as `path: it is missing`.
func missing(path string, given interface{}, kind reflect.Type) []string {
	var found []string
	switch kind.Kind() {
	case reflect.Ptr:
		return missing(path, given, kind.Elem())
	case reflect.Slice:
		items, _ := given.([]interface{})
		for _, item := range items {
			found = append(found, missing(path, item, kind.Elem())...)
		}
	case reflect.Struct:
		own, _ := given.(map[string]interface{})
		for at := 0; at < kind.NumField(); at++ {
			field := kind.Field(at)
			words := strings.Split(field.Tag.Get("json"), ",")
			if field.Anonymous {
				found = append(found, missing(path, given, field.Type)...)
			} else if value, is := own[words[0]]; is {
				found = append(found, missing(path+"."+words[0], value, field.Type)...)
			} else if len(words) < 2 {
				found = append(found, path+"."+words[0]+": it is missing")
			}
		}
	}
	return found
}

// A value without the fields that these types do not have yet.
func without(value interface{}, known map[string]bool) interface{} {
	switch it := value.(type) {
	case map[string]interface{}:
		for name := range it {
			if known[name] {
				delete(it, name)
			} else {
				it[name] = without(it[name], known)
			}
		}
	case []interface{}:
		for at := range it {
			it[at] = without(it[at], known)
		}
	}
	return value
}

func check(line []byte, known map[string]bool) []string {
	var given interface{}
	if err := json.Unmarshal(line, &given); err != nil {
		return []string{err.Error()}
	}
	if own, is := given.(map[string]interface{}); is {
		if name, is := own["command"].(string); is && known[name] {
			return nil
		}
	}
	line, _ = json.Marshal(without(given, known))
	message, err := dap.DecodeProtocolMessage(line)
	if err != nil {
		return []string{err.Error()}
	}
	fresh := reflect.New(reflect.TypeOf(message).Elem()).Interface()
	decoder := json.NewDecoder(bytes.NewReader(line))
	decoder.DisallowUnknownFields()
	if err := decoder.Decode(fresh); err != nil {
		return []string{err.Error()}
	}
	return missing("", given, reflect.TypeOf(message))
}

func main() {
	known := map[string]bool{}
	for _, name := range os.Args[1:] {
		known[name] = true
	}
	count, wrong := 0, 0
	reader := bufio.NewScanner(os.Stdin)
	reader.Buffer(nil, 1<<25)
	for reader.Scan() {
		count++
		if found := check(reader.Bytes(), known); len(found) > 0 {
			wrong++
			text := reader.Text()
			if len(text) > 300 {
				text = text[:300]
			}
			fmt.Printf("%s\n    %s\n", text, strings.Join(found, "\n    "))
		}
	}
	if reader.Err() != nil {
		fmt.Println(reader.Err())
		wrong++
	}
	fmt.Printf("%d messages, %d differ\n", count, wrong)
	if wrong > 0 || count == 0 {
		os.Exit(1)
	}
}
