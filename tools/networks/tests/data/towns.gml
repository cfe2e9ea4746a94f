Creator "a test"
graph [
  directed 0
  node [ id 0 label "Graz" Longitude 15.44 Latitude 47.07 ]
  node [
    id 1
    label "Wien &#38; Umgebung"
    Longitude 16.37
    Latitude 48.21
  ]
  node [ id 2 label "Linz" graphics [ x 1.0 y 2.0 ] ]
  edge [ source 0 target 1 LinkSpeed "10" LinkSpeedUnits "G" ]
  edge [ source 1 target 2 LinkLabel "1 Gbit/s" delay "2 ms" ]
]
