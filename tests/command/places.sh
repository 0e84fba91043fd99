# Where the command stands, and how it is called.
# shellcheck shell=sh
# shellcheck disable=SC2016,SC2154

links=$work/links
mkdir "$links" "$links/deep"
ln -s "$list" "$links/whole"
ln -s ../copy/cabinet-list "$links/relative"
ln -s deep/two "$links/one"
ln -s ../relative "$links/deep/two"
ln -s "$list" "$links/cabinet-list"
ln -s "$work/copy" "$links/folder"

try 'by a link' 0 aes '' '"$links/whole" <"$deposits/aes"'
try 'by a relative link' 0 aes '' '"$links/relative" <"$deposits/aes"'
try 'by a chain of links' 0 aes '' '"$links/one" <"$deposits/aes"'
try 'by a link, from another folder' 0 aes '' 'cd / && "$links/one" <"$deposits/aes"'
try 'by a link in its own folder' 0 aes '' 'cd "$links" && ./relative ../deposits/aes'
try 'by a link to the checkout' 0 aes '' '"$links/folder/cabinet-list" <"$deposits/aes"'
try 'by PATH' 0 aes '' 'cd / && PATH=$work/copy:$PATH cabinet-list <"$deposits/aes"'
try 'by PATH and a link' 0 aes '' 'cd / && PATH=$links:$PATH cabinet-list <"$deposits/aes"'
try 'by PATH, a relative one' 0 aes '' 'cd "$links/deep" && PATH=..:$PATH cabinet-list <"$deposits/aes"'
try 'by sh' 0 aes '' 'cd "$work/copy" && sh cabinet-list <"$deposits/aes"'
try 'a file of the folder that one is in' 0 aes '' 'cd "$deposits" && ../copy/cabinet-list aes'

copy_checkout "$work/with  spaces * and 'more'"
ln -s "$work/with  spaces * and 'more'/cabinet-list" "$links/spaces"
try 'spaces in the path' 0 aes '' '"$work/with  spaces * and '"'more'"'/cabinet-list" <"$deposits/aes"'
try 'spaces in the path, by a link' 0 aes '' '"$links/spaces" <"$deposits/aes"'
mkdir "$work/-x"
mv "$work/with  spaces * and 'more'" "$work/-x/-copy"
try 'a path that begins with -' 0 aes '' 'cd "$work/-x" && ./-copy/cabinet-list <"$deposits/aes"'
