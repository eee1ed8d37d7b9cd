package fetch

import (
	"errors"
	"fmt"
	"net/url"
	"strings"

	"fishreef/programs/internal/payloads"
)

// IsURL reports whether a word is a URL and not a file name: it has a scheme, or begins with one of
// the web.
func IsURL(word string) bool {
	scheme, _, _ := strings.Cut(word, ":")
	return strings.Contains(word, "://") || scheme != word && isWeb(scheme)
}

// isWeb reports whether lists can be fetched by this scheme.
func isWeb(scheme string) bool {
	return strings.EqualFold(scheme, "http") || strings.EqualFold(scheme, "https")
}

// FileOf returns the list of a path or a URL.
//
// Errors: it is a URL, but not of http or https, lacks a host, or has a fragment.
func FileOf(format payloads.Format, word string) (payloads.File, error) {
	if !IsURL(word) {
		return payloads.File{Format: format, Path: word}, nil
	}
	at, err := parse(word)
	if err != nil {
		return payloads.File{}, err
	}
	return payloads.File{Format: format, Path: at.Redacted(), URL: at}, nil
}

// parse parses the URL of a list.
func parse(word string) (*url.URL, error) {
	parsed, err := url.Parse(word)
	var wrong *url.Error
	switch {
	case errors.As(err, &wrong):
		return nil, fmt.Errorf("not a URL: %w", wrong.Err)
	case err != nil:
		return nil, err
	case !isWeb(parsed.Scheme):
		return nil, fmt.Errorf("%q isn't an http:// or https:// URL", parsed.Redacted())
	case parsed.Hostname() == "":
		return nil, fmt.Errorf("%q has no host: http://HOST/PATH or https://HOST/PATH", parsed.Redacted())
	case parsed.Fragment != "":
		return nil, fmt.Errorf("%q has a fragment (#), which isn't sent to servers", parsed.Redacted())
	}
	return parsed, nil
}
