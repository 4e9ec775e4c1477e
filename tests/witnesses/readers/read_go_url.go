// Go's net/url.
package main

import "net/url"

func read(text string) (parts, error) {
	it, err := url.Parse(text)
	if err != nil {
		return nil, err
	}
	return partsOf(it), nil
}
