// jp for Go. The package needs the standard library alone, and a C compiler.
module jsonpath-jp

go 1.19
