// Reads messages of the debug adapter from standard input, and tells whether each has the form that Go's library of the
// protocol knows: it is decoded into the library's type of its kind, and what the type holds is what was sent, no word more
// or less. The status is 1 if one hasn't. checks/dap/forms.sh calls it.
package main

import (
	"bufio"
	"encoding/json"
	"fmt"
	"io"
	"os"
	"reflect"
	"sort"
	"strings"

	"github.com/google/go-dap"
)

// missing tells the paths of values that were sent and that a type doesn't hold.
func missing(path string, sent, held interface{}) []string {
	switch value := sent.(type) {
	case map[string]interface{}:
		other, isMap := held.(map[string]interface{})
		if !isMap {
			return []string{path}
		}
		var found []string
		for name, it := range value {
			kept, isThere := other[name]
			if !isThere && isZero(it) {
				continue
			}
			if !isThere {
				found = append(found, path+"."+name)
				continue
			}
			found = append(found, missing(path+"."+name, it, kept)...)
		}
		return found
	case []interface{}:
		other, isList := held.([]interface{})
		if !isList || len(other) != len(value) {
			return []string{path}
		}
		var found []string
		for place, it := range value {
			found = append(found, missing(path+"[]", it, other[place])...)
		}
		return found
	}
	if !reflect.DeepEqual(sent, held) {
		return []string{path}
	}
	return nil
}

// isZero: the library leaves out what is zero, empty or false.
func isZero(value interface{}) bool {
	switch it := value.(type) {
	case nil:
		return true
	case bool:
		return !it
	case float64:
		return it == 0
	case string:
		return it == ""
	case []interface{}:
		return len(it) == 0
	case map[string]interface{}:
		return len(it) == 0
	}
	return false
}

// kind names a message, as "response stackTrace".
func kind(sent map[string]interface{}) string {
	name := sent["command"]
	if sent["type"] == "event" {
		name = sent["event"]
	}
	if sent["success"] == false {
		return "refusal"
	}
	return fmt.Sprint(sent["type"], " ", name)
}

// checked tells what is wrong with a message; nothing if it has the library's form.
func checked(content []byte, sent map[string]interface{}) []string {
	message, err := dap.DecodeProtocolMessage(content)
	if err != nil {
		return []string{err.Error()}
	}
	again, err := json.Marshal(message)
	if err != nil {
		return []string{err.Error()}
	}
	var held map[string]interface{}
	if err := json.Unmarshal(again, &held); err != nil {
		return []string{err.Error()}
	}
	return missing(strings.Split(reflect.TypeOf(message).String(), ".")[1], sent, held)
}

func main() {
	reader, seen, wrong := bufio.NewReader(os.Stdin), map[string]int{}, map[string]int{}
	for {
		content, err := dap.ReadBaseMessage(reader)
		if err == io.EOF {
			break
		}
		if err != nil {
			fmt.Println("a message can't be read:", err)
			os.Exit(1)
		}
		var sent map[string]interface{}
		if err := json.Unmarshal(content, &sent); err != nil {
			fmt.Println("a message is no JSON:", err)
			os.Exit(1)
		}
		seen[kind(sent)]++
		for _, it := range checked(content, sent) {
			wrong[kind(sent)+": "+it]++
		}
	}
	messages, kinds := 0, []string{}
	for name, count := range seen {
		messages += count
		kinds = append(kinds, name)
	}
	sort.Strings(kinds)
	for name, count := range wrong {
		fmt.Printf("%s (%d)\n", name, count)
	}
	fmt.Printf("%d messages of %d kinds have the form that Go's library knows, %d haven't: %s\n", messages, len(kinds), len(wrong), strings.Join(kinds, ", "))
	if len(wrong) > 0 || messages == 0 {
		os.Exit(1)
	}
}
