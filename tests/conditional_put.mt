alone putif 61 0 0=01
alone putif 61 0 0=02
alone putif 61 1 0=02
alone remove 61
alone putif 61 2 0=03
