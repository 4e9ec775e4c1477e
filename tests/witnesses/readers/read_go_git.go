// go-git: the endpoint that it makes of a text, and of HTTP what the request is made of.
package main

import (
	"net/url"
	"strconv"

	"github.com/go-git/go-git/plumbing/transport"
)

func read(text string) (parts, error) {
	it, err := transport.NewEndpoint(text)
	if err != nil {
		return nil, err
	}
	found := parts{"scheme": it.Protocol, "user": it.User, "password": it.Password, "host": it.Host, "path": it.Path}
	if it.Port != 0 {
		found["port"] = strconv.Itoa(it.Port)
	}
	if it.Protocol == "http" || it.Protocol == "https" {
		asked, err := url.Parse(it.String())
		if err != nil {
			return nil, err
		}
		sent := partsOf(asked)
		found["host"], found["port"], found["path"], found["query"] = sent["host"], sent["port"], sent["path"], sent["query"]
	}
	return found, nil
}
