import json, urllib.parse, urllib.request
text = "PREFIX : <http://example.org/> SELECT ?name WHERE { [] :name ?name } ORDER BY ?name"
with urllib.request.urlopen("http://127.0.0.1:7878/query", urllib.parse.urlencode({"query": text}).encode()) as reply:
    for row in json.load(reply)["results"]["bindings"]:
        print(row["name"]["value"])
