module keqapwi.example/pnuts-http

go 1.19

require keqapwi.example/pnuts v0.3.0

replace keqapwi.example/pnuts => ../clients/go
