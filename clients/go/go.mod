module keqapwi.example/pnuts

go 1.19
