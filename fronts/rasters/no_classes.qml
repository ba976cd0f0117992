<qgis><pipe/></qgis>
