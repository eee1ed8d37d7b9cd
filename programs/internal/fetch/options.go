package fetch

import (
	"fmt"
	"time"

	"fishreef/programs/internal/payloads"
	"fishreef/programs/internal/words"
	"fishreef/rtr"
)

// Usual returns the default settings.
func Usual() Settings {
	return Settings{
		Every: 5 * time.Minute, Timeout: 2 * time.Minute, Bytes: mostMegabytes * megabyte,
	}
}

// Options returns the options for fetched lists.
func (f *Settings) Options() []words.Option {
	return []words.Option{
		{
			Name: "fetch", Argument: "TIME",
			Help: "Fetch lists by URL this often, after a failure at first sooner " +
				"(default 5m)",
			Set: words.Wait(&f.Every, time.Second),
		},
		{
			Name: "fetch-timeout", Argument: "TIME",
			Help: "Give up a fetch that takes longer (default 2m)",
			Set:  words.Wait(&f.Timeout, time.Second),
		},
		{
			Name: "fetch-limit", Argument: "MB",
			Help: "Refuse a list by URL of more than MB megabytes, uncompressed " +
				"(default 268)",
			Set: func(text string) error {
				megabytes := 0
				if err := words.Count(&megabytes, 1)(text); err != nil {
					return err
				}
				if megabytes > mostMegabytes {
					return fmt.Errorf("%d is more than %d", megabytes, mostMegabytes)
				}
				f.Bytes = int64(megabytes) * megabyte
				return nil
			},
		},
		{
			Name: "fetch-ca", Argument: "FILE",
			Help: "Trust these authorities for https (PEM; default those of the " +
				"system)",
			Set: words.Text(&f.Authority),
		},
	}
}

// Check returns an error if one of the options is given, and none of the lists is fetched. The
// authorities may be for a list by http, since its server may redirect to https.
func (f *Settings) Check(given words.Given, lists ...payloads.File) error {
	for _, list := range lists {
		if list.URL != nil {
			return nil
		}
	}
	for _, option := range f.Options() {
		err := given.Without("a list by URL: http://HOST/PATH or https://HOST/PATH", option.Name)
		if err != nil {
			return err
		}
	}
	return nil
}

// The limit for a fetched list is that of a file, in whole megabytes.
const (
	megabyte      = 1000 * 1000
	mostMegabytes = rtr.MostDataBytes / megabyte
)
