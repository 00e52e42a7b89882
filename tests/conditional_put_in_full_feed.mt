alone build range - none any
alone putif 01 0 0=01
alone putif 02 0 0=02
alone putif 02 1 0=02
alone putif 01 1 0=03
alone putif 01 2 0=03
apply 1
alone putif 01 1 0=03
alone putif 02 0 0=02
view 1 1 - 10
apply 1
alone putif 02 0 0=02
apply 1
view 1 3 - 10
