#!/bin/sh
# examples/tls/certificates.sh FOLDER: an authority, and certificates of a server, an agent and a client by it, in this
# folder, for trials. Each .pem file has a certificate and its key, as haproxy takes them.
set -e
cd "$1"

openssl req -x509 -newkey rsa:2048 -nodes -days 30 -subj /CN=authority -keyout ca.key -out ca.crt 2>/dev/null
for name in server agent client; do
    openssl req -newkey rsa:2048 -nodes -subj "/CN=$name" -keyout "$name.key" -out "$name.csr" 2>/dev/null
    printf 'subjectAltName=DNS:konnectivity.example\n' >"$name.ext"
    openssl x509 -req -in "$name.csr" -CA ca.crt -CAkey ca.key -CAcreateserial -days 30 -extfile "$name.ext" \
        -out "$name.crt" 2>/dev/null
    cat "$name.crt" "$name.key" >"$name.pem"
    rm "$name.csr" "$name.ext"
done
