PREFIX : <http://example.org/>
WITH :loans
DELETE { ?book :lentTo ?who } INSERT { ?book :returned [ :by ?who ] } WHERE { ?book :lentTo ?who } ;
INSERT DATA { GRAPH :loans { :genji :lentTo "Grace" } }
